#!/usr/bin/env python3
"""large_sources.py PROGRAM [NUMBER ..]: the time that the program takes for the largest sources and inputs of several kinds, whose runs do little.

Each source is near 1,048,576 bytes, or near the limit of 200,000 tokens or of nesting, where that comes first; each input has 67,108,864 bytes. Prints a row of a table for each:
its number, its bytes, the exit status, the first line of the text, the elapsed and the processor seconds, and the most memory that a run up to it held. A NUMBER runs this source alone. The status is 0
where each has the answer that is due, or is answered by want of memory, in less than MOST seconds of a processor.
"""
import os
import resource
import sys

import plain_runs

BYTES = 1_048_576
INPUT_BYTES = 67_108_864
# A run that takes more seconds of a processor is ended, and one that takes ten times as many on a machine that is full.
MOST = 120


def main_of(body, value="0"):
    return f"int main() {{ {body} return ({value}); }}\n"


def longest_names():
    count = 8_000
    return main_of(" ".join(f"{'n' * 58}{k:06} = {k};" for k in range(count)), f"{'n' * 58}{count - 1:06}")


def most_variables():
    return main_of("x0 = 0; " + " ".join(f"x{k} = x{k - 1} + 1;" for k in range(1, 24_000)), "x23999")


def most_functions():
    count = 9_000
    one = "".join(f"int f{k}(int x) {{ return (f{k - 1}(x)); }}\n" for k in range(1, count))
    return "int f0(int x) { return (x); }\n" + one + main_of("", "f99(7)")


def most_instances():
    ranks = ["int", "bool", "int[.]", "bool[.]", "int[.,.]", "bool[.,.]"]
    shapes = [f"int[{a},{b}]" for a in range(1, 80) for b in range(1, 80)]
    return "".join(f"int f({kind} x) {{ return ({k}); }}\n" for k, kind in enumerate(ranks + shapes)) + main_of("", "f(true)")


def most_calls_of_one_name():
    kinds = "".join(f"int f(int[{k}] x) {{ return ({k}); }}\n" for k in range(1, 1_000))
    return kinds + main_of(" ".join(f"y = f([{k}, 1, 2]);" for k in range(12_000)), "y")


def deepest_loops():
    loop = "1"
    for _ in range(47):
        loop = f"with {{ ([0] <= iv < [1]) : {loop}; }} : fold(+, 0)"
    return main_of("x = 0; " + f"x = x + {loop}; " * 150, "x")


def many_generators(step):
    grids = "".join(f"([0] <= iv < [10] step [{step(k)}]) : {k}; " for k in range(8_000))
    return f"int[*] main() {{ a = with {{ {grids} }} : genarray([10], 0); return (shape(a)); }}\n"


def points(name):
    return " ".join(f"([{k}] <= [{name}] <= [{k}]) : 0;" for k in range(1, 62, 2))


def nest_in_parts(additions):
    """A loop in a loop, each cut into 63 parts by 31 points, of which 32 have a copy of the body. Where generators hold the same index, the first one counts."""
    inner = f"with {{ {points('j')} ([0] <= [j] < [63]) {{ s = j; {'s=s+j;' * additions} }} : s; }} : fold(+, 0)"
    return f"with {{ {points('i')} ([0] <= [i] < [63]) : {inner}; }} : fold(+, 0)"


def chains_of_inline():
    one = "inline int f0(int x) { return (x + 1); }\n"
    return one + "".join(f"inline int f{k}(int x) {{ return (f{k - 1}(x) + f{k - 1}(x)); }}\n" for k in range(1, 4_000)) + main_of("", "f12(0)")


def longest_sum():
    return main_of("x = 1; y = x" + " + x" * 60 + ";" + " y = y + x;" * 30_000, "y")


def comments():
    return "/* " + "*" * (BYTES - 100) + " */ " + main_of("", "14")


def blanks():
    return "\n" * (BYTES - 100) + main_of("", "14")


def names_to_the_limit():
    return main_of("".join(f"{'n' * 58}{k:06}=0;" for k in range(15_500)), f"{'n' * 58}{15_499:06}")


def most_parameters():
    count = 60_000
    return f"int f({','.join(f'int a{k}' for k in range(count))}) {{ return (a{count - 1}); }}\n" + main_of("", "1")


def many_arguments(count):
    """A call whose arguments are variables that it uses last."""
    named = "".join(f"x{k}=0;" for k in range(count))
    return f"int f({','.join(f'int a{k}' for k in range(count))}) {{ return (1); }}\n" + main_of(f"{named}y=f({','.join(f'x{k}' for k in range(count))});", "y")


def most_results():
    count = 30_000
    heads, zeros, names = ",".join(["int"] * count), ",".join("0" * count), ",".join(f"a{k}" for k in range(count))
    return f"{heads} f() {{ return ({zeros}); }}\n" + main_of(f"{names} = f();", f"a{count - 1}")


def most_targets():
    return "int f() { return (1); }\n" + main_of(f"{','.join(f'a{k}' for k in range(99_000))} = f();", "1")


def most_index_names():
    return main_of("", f"with {{ ([0] <= [{','.join(f'i{k}' for k in range(99_000))}] < [1]) : 1; }} : fold(+, 0)")


def longest_literal():
    return main_of("", f"shape([{','.join('0' * 99_000)}])[0]")


def many_selections():
    return main_of(f"a = [{','.join('1' * 20_000)}]; s = 0; " + "".join(f"s += a[{k}];" for k in range(20_000)), "s")


def many_replacements():
    return main_of(f"a = [{','.join('0' * 40_000)}]; " + "a[1]=1;" * 14_000, "a[1]")


def many_sums_of_arrays():
    return main_of(f"a = [{','.join('0' * 40_000)}]; " + "a=a+1;" * 19_000, "a[1]")


def variables_and(statement, count):
    """Many variables, and behind them a statement that binds one of them, for each."""
    return main_of("".join(f"x{k}=0;" for k in range(count)) + "".join(statement.format(k=k) for k in range(count)), "x7")


def nested_blocks(head, tail):
    """Forty blocks in one another, of which each has a statement and the innermost has many."""
    return main_of("x=0;c=false;" + f"{head}x=x+1;" * 40 + "".join(f"y{k}=x;" for k in range(40_000)) + f"}}{tail}" * 40, "x")


def chain_of_loops(count):
    one = "".join(f"a{k}=with{{([0]<=iv<[16]):a{k - 1}[iv]+1;}}:genarray([16],0);" for k in range(1, count))
    return main_of("a0=with{([0]<=iv<[16]):iv[0];}:genarray([16],0);" + one, f"a{count - 1}[0]")


def loops_used_twice(count):
    one = "".join(f"a{k}=with{{([0]<=iv<[16]):a{k - 1}[iv]+a{k - 2}[iv];}}:genarray([16],0);" for k in range(2, count))
    return main_of("a0=with{([0]<=iv<[16]):iv[0];}:genarray([16],0);a1=a0+1;" + one, "1")


def many_nests():
    nest = "a=with{([0]<=[i]<[4]):with{([0]<=[j]<[5]):i*j+x;}:genarray([5],0);}:genarray([4],[0,0,0,0,0]);x=a[3,4];"
    return main_of("x=0;" + nest * 2_200, "x")


def cells_of_many_calls():
    one = "".join(f"int[*] f{k}(int[*] a) {{ return (with{{(.<=iv<=.):a[iv]+1;}}:genarray(shape(a),0)); }}\n" for k in range(2_500))
    return one + main_of("a=with{}:genarray([16],0);" + "".join(f"a=f{k}(a);" for k in range(2_500)), "a[0]")


def inline_in_a_row(count):
    one = "".join(f"inline int f{k}(int x) {{ return (f{k - 1}(x)+1); }}\n" for k in range(1, count))
    return "inline int f0(int x) { return (x); }\n" + one + main_of("", f"f{count - 1}(0)")


SOURCES = [
    ("8,000 names of 64 bytes", longest_names, "int[]: 7999"),
    ("15,500 names of 64 bytes", names_to_the_limit, "int[]: 0"),
    ("24,000 variables", most_variables, "int[]: 23999"),
    ("9,000 functions", most_functions, "int[]: 7"),
    ("6,247 instances of one name", most_instances, "int[]: 1"),
    ("12,000 calls of 999 instances", most_calls_of_one_name, "int[]: 3"),
    ("60,000 parameters", most_parameters, "int[]: 1"),
    ("30,000 results", most_results, "int[]: 0"),
    ("99,000 targets of a call of one result", most_targets, "refused C3 at 2:681906"),
    ("99,000 index names", most_index_names, "fault F5 at 1:30"),
    ("a literal of 99,000 elements", longest_literal, "int[]: 99000"),
    ("20,000 selections from a literal of as many", many_selections, "int[]: 20000"),
    ("14,000 replacements in an array of 40,000 elements", many_replacements, "int[]: 1"),
    ("19,000 sums of an array of 40,000 elements", many_sums_of_arrays, "int[]: 19000"),
    ("13,000 variables and conditionals", lambda: variables_and("if(true){{x{k}=1;}}", 13_000), "int[]: 1"),
    ("13,000 variables and while loops", lambda: variables_and("while(false){{x{k}=1;}}", 13_000), "int[]: 0"),
    ("12,000 variables and do loops", lambda: variables_and("do{{x{k}=1;}}while(false);", 12_000), "int[]: 1"),
    ("6,000 variables and with-loops", lambda: variables_and("x{k}=with{{([0]<=[i]<[1]):x{k};}}:fold(+,1);", 6_000), "int[]: 1"),
    ("40 conditionals in one another, 40,000 variables inside", lambda: nested_blocks("if(c){", "else{}"), "int[]: 0"),
    ("40 while loops in one another, 40,000 variables inside", lambda: nested_blocks("while(c){", ""), "int[]: 0"),
    ("40 do loops in one another, 40,000 variables inside", lambda: nested_blocks("do{", "while(c);"), "int[]: 40"),
    ("a do loop of 40,000 variables", lambda: main_of("x=0;do{" + "".join(f"y{k}=x;" for k in range(40_000)) + "}while(false);", "x"), "int[]: 0"),
    ("a call of 20,000 arguments", lambda: many_arguments(20_000), "int[]: 1"),
    ("150 nests of 47 with-loops", deepest_loops, "int[]: 150"),
    ("8,000 grids of steps that fit", lambda: many_generators(lambda k: 1 + k % 4), "int[1]: 10"),
    ("8,000 grids of too fine a period", lambda: many_generators(lambda k: 2 * k + 1), "int[1]: 10"),
    ("4,000 inline functions that double", chains_of_inline, "int[]: 4096"),
    ("700 inline functions in a row", lambda: inline_in_a_row(700), "int[]: 699"),
    ("9,000 inline functions in a row", lambda: inline_in_a_row(9_000), "int[]: 8999"),
    ("a nest whose parts make 218,000 variables", lambda: main_of("", nest_in_parts(200)), "int[]: 6380544"),
    ("three whose parts make 2,100,000 each", lambda: main_of("", " + ".join([nest_in_parts(2_000)] * 3)), "int[]: 190559232"),
    ("300 loops in a chain", lambda: chain_of_loops(300), "int[]: 299"),
    ("1,000 loops in a chain", lambda: chain_of_loops(1_000), "int[]: 999"),
    ("5,500 loops in a chain", lambda: chain_of_loops(5_500), "int[]: 5499"),
    ("3,000 loops of which each is used twice", lambda: loops_used_twice(3_000), "int[]: 1"),
    ("2,200 nests that merge", many_nests, "int[]: 26400"),
    ("2,500 functions on arrays in a row", cells_of_many_calls, "int[]: 2500"),
    ("30,000 sums", longest_sum, "int[]: 30061"),
    ("one number", lambda: main_of("", "0" * (BYTES - 100) + "7"), "int[]: 7"),
    ("one name", lambda: main_of("", "n" * (BYTES - 100)), "refused L3 at 1:23"),
    ("brackets", lambda: main_of("", "(" * 190_000), "refused P2 at 1:221"),
    ("signs", lambda: main_of("", "- " * 190_000), "refused P2 at 1:219"),
    ("one comment", comments, "int[]: 14"),
    ("blank lines", blanks, "int[]: 14"),
]

SAME = "int[*] main(int[*] a) { return (shape(a)); }"


def filled(head, piece, tail=b""):
    return head + piece * ((INPUT_BYTES - len(head) - len(tail)) // len(piece)) + tail


INPUTS = [
    ("line feeds", lambda: filled(b"", b"\n"), "refused I2"),
    ("lines", lambda: filled(b"", b"x\n"), "refused I2"),
    ("carriage returns", lambda: filled(b"", b"\r"), "refused I1 at line 1"),
    ("zero bytes", lambda: filled(b"", b"\0"), "refused I1 at line 1"),
    ("blanks in a line", lambda: filled(b"int[1]:", b" \t", b"5"), "int[1]: 1"),
    ("digits of one element", lambda: filled(b"int[1]: ", b"0", b"5"), "int[1]: 1"),
    ("digits of one extent", lambda: filled(b"int[", b"0", b"1]: 5"), "int[1]: 1"),
    ("digits of a number that is too large", lambda: filled(b"int[1]: ", b"9"), "refused I3 at line 1"),
    ("extents", lambda: filled(b"int[1", b",1", b"]: 5"), "refused I6 at line 1"),
    ("elements", lambda: filled(b"int[1]:", b" 5"), "refused I6 at line 1"),
    ("truth values", lambda: filled(b"bool[1]:", b" true"), "refused I4 at line 1"),
]


def held_by(source, given):
    """Runs the program on a source and an input. Returns its answer, the processor seconds that it took, and the MB that this run or one before it held at most."""
    before = resource.getrusage(resource.RUSAGE_CHILDREN)
    answer = plain_runs.run(os.path.abspath(sys.argv[1]), source, given, seconds=10 * MOST, processor=MOST)
    after = resource.getrusage(resource.RUSAGE_CHILDREN)
    return answer, after.ru_utime + after.ru_stime - before.ru_utime - before.ru_stime, after.ru_maxrss / 1024


def main():
    cases = [(name, lambda source=source: source().encode(), None, due) for name, source, due in SOURCES]
    cases += [(f"an input of {name}", lambda: SAME.encode(), given, due) for name, given, due in INPUTS]
    chosen = {int(word) for word in sys.argv[2:]}
    lost = 0
    print("| | Source | Bytes | Status | Text | Seconds | Of a processor | Memory |\n|---|---|---|---|---|---|---|---|")
    for number, (name, source, given, due) in enumerate(cases, 1):
        if chosen and number not in chosen:
            continue
        texts = source(), given() if given else None
        answer, processor, most = held_by(*texts)
        first = answer.text.split("\n", 1)[0][:40]
        right = answer.status is not None and (due == first or answer.status == 8)
        lost += not right
        size = len(texts[1] if given else texts[0])
        print(f"| {number} | {name} | {size:,} | {answer.status} | {first} | {answer.seconds:.2f} | {processor:.2f} | {most:.0f} MB |{'' if right else f' wrong, due {due}'}", flush=True)
    return 1 if lost else 0


if __name__ == "__main__":
    sys.exit(main())
