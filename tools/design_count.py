#!/usr/bin/env python3
"""Counts the places of which docs/DESIGN-PASS.md speaks, in src/ of every crate. Run at the top of a checkout; --list names them."""
import glob
import re
import sys

LIST = '--list' in sys.argv[1:]
FILES = sorted(glob.glob('crates/*/src/*.rt'))
TEXT = {f: open(f).read() for f in FILES}
ALL = '\n'.join(TEXT.values())


def say(key, what, places):
    print(f'{key:3} {what:78} {len(places):5}')
    if LIST:
        for place in places:
            print('        ' + ' '.join(place.split())[:150])


def lines(pattern, files=None):
    rx = re.compile(pattern)
    return [f'{f}: {l}' for f in files or FILES for l in TEXT[f].split('\n') if rx.search(l)]


def enums():
    for f, text in TEXT.items():
        for m in re.finditer(r'^(?:pub )?enum (\w+)[^{]*\{\n(.*?)^\}', text, re.M | re.S):
            cases = re.findall(r'^    ([A-Z]\w*)', m.group(2), re.M)
            yield f, m.group(1), cases


def functions():
    """(file, name, body), the body without its indentation, its types, constants and numbers as one sign."""
    for f, text in TEXT.items():
        for m in re.finditer(r'^( *)(?:pub(?:\([a-z]+\))? )?fn (\w+)', text, re.M):
            end = re.compile(r'^' + m.group(1) + r'\}', re.M).search(text, m.end())
            begin = re.compile(r'^' + m.group(1) + r'\{|\{$', re.M).search(text, m.end())
            if end and begin and begin.start() < end.start() and ';' not in re.sub(r'\[[^\]]*\]', '', text[m.end():begin.start()]):
                body = text[begin.end():end.start()]
                yield f, m.group(2), re.sub(r'\b[A-Z]\w*\b|\b\d\w*\b', 'X', ' '.join(body.split()))


say('1a', 'enums with a case Refused, Nothing, Bad, None, Error or Fine',
    [f'{f}: {n} {c}' for f, n, c in enums() if {'Refused', 'Nothing', 'Bad', 'None', 'Error', 'Fine'} & set(c)])
say('1b', 'fields that are a flag of how a call went, or of the value beside it',
    lines(r'^    (pub )?(ok|changed|yes|due|expired|any|waits|over|read|written|skips): bool,'))
say('1c', 'constants that number the kinds of something, or stand for "none"',
    lines(r'^const [A-Z0-9]+: (usize|u8|u64) = \d+;', [f for f in FILES if re.search(r'/(values|views|acts|rounds|text|lines)/', f)]))
bodies = {}
for f, n, b in functions():
    if len(b) > 60:
        bodies.setdefault(b, []).append(f'{f}: {n}')
say('2', 'functions with the body of another, but for types, constants and numbers', [p for ps in bodies.values() if len(ps) > 1 for p in ps])
say('3a', 'loops that count an index up by hand', lines(r"^ *('\w+: )?while (\w+ < |2 <= )"))
say('3b', 'other while loops, and loop', [l for l in lines(r"^ *('\w+: )?(while |loop \{)") if not re.search(r"while (\w+ < |2 <= )", l)])
say('4a', 'equality and order by hand', lines(r'^ *(pub )?fn (same|same_octets|same_route|is|is_before|is_failed|is_nothing|is_complete)\('))
say('4b', 'calls of them', re.findall(r'\.same\(|same_octets\(|(?<![_a-z])is\(|\.is_before\(|is_failed\(|is_nothing\(', ALL))
say('5a', 'functions that take a buffer and the place in it, (out, at), and give the next',
    re.findall(r'fn \w+(?:<[^(]*>)?\([^)]*\bout: &mut \[u8\],\s+at: usize[^)]*\)', ALL))
say('5b', 'clauses is_written target.new ≡ is_written target.old', lines(r'is_written target\.new ≡ is_written target\.old'))
say('5c', 'clauses requires { Fits .. } and { Room .. }', lines(r'requires \{ (Fits|Room) '))
say('5d', 'clauses requires { i + N ≤ length s }', lines(r'requires \{ (i \+ )?\d+ ≤ length s\.'))
say('6', 'structs that hold slots and their count', lines(r'^    pub (len|prefix_count|router_count): usize'))
say('7', 'switches on the number of a call', lines(r'match (args\.)?code'))
say('9', 'locals that only name a field', lines(r'^ *let (mut )?\w+ = [a-z_.]+\.\w+;'))
