-- work.lua NAME ROUNDS: the works of this folder, in Lua. 32-bit numbers wrap.
local SIDE, WIDE = 1000, 4096

local function wrapped(number)
    return (number + 2^31 // 1 | 0) % 4294967296 - 2147483648
end

local function quotient(a, b)
    if a >= 0 then return a // b end
    return -(-a // b)
end

local function remainder(a, b)
    if a >= 0 then return a % b end
    return -(-a % b)
end

local steps = {}

function steps.neighbours(a)
    local b = table.move(a, 1, SIDE * SIDE, 1, {})
    for i = 1, SIDE - 2 do
        for at = i * SIDE + 2, i * SIDE + SIDE - 1 do
            b[at] = quotient(a[at - SIDE] + a[at + SIDE] + a[at - 1] + a[at + 1], 4)
        end
    end
    return b
end

local function flow(here, there)
    return quotient(math.min(math.max(there - here, -50), 50), 5)
end

function steps.flows(a)
    local b = table.move(a, 1, SIDE * SIDE, 1, {})
    for i = 1, SIDE - 2 do
        for at = i * SIDE + 2, i * SIDE + SIDE - 1 do
            b[at] = a[at] + flow(a[at], a[at - SIDE]) + flow(a[at], a[at + SIDE]) + flow(a[at], a[at - 1]) + flow(a[at], a[at + 1])
        end
    end
    return b
end

function steps.life(a)
    local b = {}
    for at = 1, SIDE * SIDE do b[at] = 0 end
    for i = 1, SIDE - 2 do
        for at = i * SIDE + 2, i * SIDE + SIDE - 1 do
            local n = a[at - SIDE - 1] + a[at - SIDE] + a[at - SIDE + 1] + a[at - 1] + a[at + 1]
                + a[at + SIDE - 1] + a[at + SIDE] + a[at + SIDE + 1]
            b[at] = n == 3 and 1 or n == 2 and a[at] or 0
        end
    end
    return b
end

function steps.border(a)
    local b = {}
    for at = 1, SIDE * SIDE do
        b[at] = remainder(at > SIDE and a[at] - a[at - SIDE] or a[at], 1000)
    end
    return b
end

function steps.plus_one(a)
    local b = {}
    for at = 1, SIDE * SIDE do b[at] = a[at] + 1 end
    return b
end

function steps.chain(a)
    local b, c, d = {}, {}, {}
    for at = 1, SIDE * SIDE do b[at] = a[at] * 3 end
    for at = 1, SIDE * SIDE do c[at] = b[at] + 7 end
    for at = 1, SIDE * SIDE do d[at] = c[at] % 256 end
    return d
end

function steps.sum(a, first)
    local b = {}
    for at = 1, SIDE * SIDE do b[at] = first[at] + a[at] end
    return b
end

function steps.convolution(a)
    local weights, near = {1, 2, 1, 2, 4, 2, 1, 2, 1}, {}
    for k = 0, 2 do
        for l = 0, 2 do near[3 * k + l + 1] = (k - 1) * SIDE + l - 1 end
    end
    local b = table.move(a, 1, SIDE * SIDE, 1, {})
    for i = 1, SIDE - 2 do
        for at = i * SIDE + 2, i * SIDE + SIDE - 1 do
            local total = 0
            for n = 1, 9 do total = total + a[at + near[n]] * weights[n] end
            b[at] = quotient(total, 16)
        end
    end
    return b
end

local function product(rounds)
    local SMALL = 200
    local a, b = {}, {}
    for i = 0, SMALL - 1 do
        a[i + 1], b[i + 1] = {}, {}
        for j = 0, SMALL - 1 do
            a[i + 1][j + 1] = (i * 7 + j * 13) % 256
            b[i + 1][j + 1] = a[i + 1][j + 1]
        end
    end
    for _ = 1, rounds do
        local c = {}
        for i = 1, SMALL do
            local row, cells = a[i], {}
            for j = 1, SMALL do
                local total = 0
                for k = 1, SMALL do total = total + row[k] * b[k][j] end
                cells[j] = total % 256
            end
            c[i] = cells
        end
        a = c
    end
    local sum = 0
    for i = 1, SMALL do
        for j = 1, SMALL do sum = sum + a[i][j] end
    end
    return sum
end

local whole = {product = product}

function whole.scalars(rounds)
    local a, b = 1, 0
    for _ = 1, rounds * 100000 do
        a = (a * 5 + b) % 1000
        b = (b + a) % 100000
    end
    return a + b
end

local function fib(n)
    if n > 1 then return fib(n - 1) + fib(n - 2) end
    return n
end

function whole.fib(rounds)
    local s = 0
    for t = 0, rounds - 1 do s = s + fib(20) % 1000 + t end
    return s
end

function whole.prefix(rounds)
    local a = {}
    for i = 0, 999 do a[i + 1] = i * 7 % 256 end
    for _ = 1, rounds do
        local b = {}
        for i = 1, 1000 do
            local total = 0
            for k = 1, i do total = total + a[k] end
            b[i] = total % 256
        end
        a = b
    end
    local s = 0
    for i = 1, 1000 do s = s + a[i] end
    return s
end

function whole.histogram(rounds)
    local a, s = {}, 0
    for i = 0, 9999 do a[i + 1] = i * 7 % 256 end
    for t = 0, rounds - 1 do
        local counts = {}
        for b = 0, 255 do
            local count = 0
            for i = 1, 10000 do count = count + (a[i] == b and 1 or 0) end
            counts[b] = count
        end
        s = s + counts[t % 256]
        for i = 1, 10000 do a[i] = (a[i] + 1) % 256 end
    end
    return s
end

local function turns(x, y, limit)
    local a, b, n = 0, 0, 0
    while a * a // 4096 + b * b // 4096 <= 16384 and n < limit do
        a, b = a * a // 4096 - b * b // 4096 + x, quotient(2 * a * b, 4096) + y
        n = n + 1
    end
    return n
end

function whole.mandelbrot(rounds)
    local s = 0
    for t = 0, rounds - 1 do
        for i = 0, 199 do
            for j = 0, 199 do s = s + turns(j * 12288 // 200 - 8704, i * 10240 // 200 - 5120, 50 + t % 2) end
        end
    end
    return s
end

local function is_free(columns, row, column)
    for k = 0, row - 1 do
        local other = columns[k + 1]
        if other == column or other - column == row - k or column - other == row - k then return false end
    end
    return true
end

local function ways(columns, row)
    if row == 6 then return 1 end
    local count = 0
    for column = 0, 5 do
        if is_free(columns, row, column) then
            local further = table.move(columns, 1, 6, 1, {})
            further[row + 1] = column
            count = count + ways(further, row + 1)
        end
    end
    return count
end

function whole.queens(rounds)
    local s = 0
    for t = 0, rounds - 1 do s = s + ways({0, 0, 0, 0, 0, 0}, 0) + t % 2 end
    return s
end

function whole.paths(rounds)
    local a = {}
    for i = 0, 59 do
        a[i + 1] = {}
        for j = 0, 59 do a[i + 1][j + 1] = i == j and 0 or 1 + (i * 7 + j * 13) % 256 end
    end
    for _ = 1, rounds do
        local b = {}
        for i = 1, 60 do
            local row = {}
            for j = 1, 60 do
                local least = a[i][j]
                for k = 1, 60 do least = math.min(least, a[i][k] + a[k][j]) end
                row[j] = least
            end
            b[i] = row
        end
        a = b
    end
    local s = 0
    for i = 1, 60 do
        for j = 1, 60 do s = s + a[i][j] end
    end
    return s
end

local work, rounds = arg[1], tonumber(arg[2])
if whole[work] then
    print(math.tointeger(wrapped(whole[work](rounds))))
    os.exit(0)
end
if work == "indices" then
    local a = {}
    for t = 0, rounds - 1 do
        for i = 0, WIDE - 1 do
            for j = 0, WIDE - 1 do a[i * WIDE + j + 1] = i + j + t end
        end
    end
    print(a[WIDE + 2] or 0)
    os.exit(0)
end
local a = {}
for i = 0, SIDE - 1 do
    for j = 0, SIDE - 1 do
        local seed = i * 7 + j * 13
        a[i * SIDE + j + 1] = work == "life" and (seed % 11 < 4 and 1 or 0) or work ~= "life" and seed % 256 or 0
    end
end
if work == "totals" then
    local total = 0
    for t = 0, rounds - 1 do
        for at = 1, SIDE * SIDE do total = total + a[at] * (a[at] + t) % 7 end
    end
    print(math.tointeger(wrapped(total)))
    os.exit(0)
end
local first = a
for _ = 1, rounds do a = steps[work](a, first) end
local sum = 0
for at = 1, SIDE * SIDE do sum = sum + a[at] end
print(math.tointeger(wrapped(sum)))
