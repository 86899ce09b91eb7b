#!/usr/bin/env python3
"""Writes the traces of a small CPU: examples/cpu/generate.py FOLDER [broken]

It has eight registers and a memory, and runs the program below: the squares of 1, 2 and 3 are stored at these
addresses, loaded again and added up, and the sum 14 is the output. A step reads the registers a and b and writes the
register c, at the times 3 t + 1 to 3 t + 3. With `broken` two cells are other ones: the output step reads 15 in
register 6, where 14 is, and the table of small numbers counts one use of 2 too many.
"""
import collections
import os
import sys

ADD, MUL, LOAD, STORE, BRANCH, OUTPUT = range(1, 7)
# Opcode, a, b, c. A branch goes to c where the registers differ; a load and a store take their address from a.
PROGRAM = [
    (MUL, 1, 1, 4),  # r4 = r1 * r1
    (STORE, 1, 4, 0),  # memory[r1] = r4
    (LOAD, 1, 0, 5),  # r5 = memory[r1]
    (ADD, 6, 5, 6),  # r6 = r6 + r5
    (ADD, 1, 2, 1),  # r1 = r1 + r2
    (BRANCH, 1, 3, 0),  # where r1 is not r3: go to 0
    (OUTPUT, 6, 0, 0),  # the output is r6
]
FIRST_REGISTERS = [0, 1, 1, 4, 0, 0, 0, 0]
FIRST_MEMORY = {2: 0, 3: 0, 1: 0, 9: 5}
ROWS, SMALL = 32, 64
FLAGS = ["is_add", "is_mul", "is_load", "is_store", "is_branch", "is_output"]
READ = ["a_value", "a_time", "b_value", "b_time"]
CPU = ["t", "pc", *FLAGS, "taken", "a", "b", "c", *READ, "old value", "c_time", "out", "m_old", "m_time"]


class Machine:
    """The machine as it runs: what each cell holds, and since when."""

    def __init__(self):
        self.registers = [(value, 0) for value in FIRST_REGISTERS]
        self.memory = {address: (value, 0) for address, value in FIRST_MEMORY.items()}
        self.small, self.products, self.fetched = (collections.Counter() for _ in range(3))
        self.rows, self.pc = [], 0

    def register(self, index, time, value=None):
        """Reads a register, or writes it where there is a value; answers what it held, and since when."""
        held, since = self.registers[index]
        self.registers[index] = (held if value is None else value, time)
        self.small[time - since - 1] += 1
        return held, since

    def step(self, t):
        opcode, a, b, c = PROGRAM[self.pc]
        self.fetched[self.pc] += 1
        a_value, a_time = self.register(a, 3 * t + 1)
        b_value, b_time = self.register(b, 3 * t + 2)
        taken, out, m_old, m_time, old, c_time = int(opcode == BRANCH and a_value != b_value), 0, 0, 0, 0, 0
        if opcode == ADD:
            out = a_value + b_value
            self.small[out] += 1
        elif opcode == MUL:
            out = a_value * b_value
            self.products[a_value, b_value] += 1
        elif opcode in (LOAD, STORE):
            m_old, m_time = self.memory[a_value]
            out = m_old if opcode == LOAD else 0
            self.memory[a_value] = (b_value if opcode == STORE else m_old, t + 1)
            self.small[t - m_time] += 1
        if opcode in (ADD, MUL, LOAD):
            old, c_time = self.register(c, 3 * t + 3, out)
        flags = [int(opcode == it) for it in (ADD, MUL, LOAD, STORE, BRANCH, OUTPUT)]
        row = [t, self.pc, *flags, taken, a, b, c, a_value, a_time, b_value, b_time, old, c_time, out, m_old, m_time]
        self.rows.append(row)
        self.pc = c if taken else self.pc + 1

    def run(self):
        while self.pc < len(PROGRAM):
            self.step(len(self.rows))


def tables(machine):
    """All tables, each with its columns and rows."""
    padding = [[0] * len(CPU)] * (ROWS - len(machine.rows))
    addresses = sorted(FIRST_MEMORY)
    for one, two in zip(addresses, addresses[1:]):
        machine.small[two - one - 1] += 1
    program = [[pc, *it] for pc, it in enumerate(PROGRAM)] + [[7, 0, 0, 0, 0]]
    products = [[x, y, uses] for (x, y), uses in machine.products.items()] + [[0, 0, 0]]
    memory = [[it, FIRST_MEMORY[it], *machine.memory[it]] for it in FIRST_MEMORY]
    return {
        "cpu.csv": (CPU, machine.rows + padding),
        "program.csv": (["pc", "opcode", "a", "b", "c"], program),
        "program_uses.csv": (["uses"], [[machine.fetched[pc]] for pc in range(8)]),
        "registers.csv": (["index", "first", "last", "last_time"],
                          [[index, FIRST_REGISTERS[index], *held] for index, held in enumerate(machine.registers)]),
        "memory.csv": (["address", "first", "last", "last_time", "sorted"],
                       [[*row, address] for row, address in zip(memory, addresses)]),
        "multiplier.csv": (["x", "y", "uses"], products),
        "small.csv": (["x"], [[x] for x in range(SMALL)]),
        "small_uses.csv": (["uses"], [[machine.small[x]] for x in range(SMALL)]),
        "ends.csv": (["row"], [[0], [1]]),
        "output.csv": (["row"], [[0]]),
    }  # fmt: skip


def main(folder, broken=False):
    machine = Machine()
    machine.run()
    made = tables(machine)
    if broken:
        made["cpu.csv"][1][len(machine.rows) - 1][CPU.index("a_value")] = 15
        made["small_uses.csv"][1][2][0] += 1
    for name, (columns, rows) in made.items():
        with open(os.path.join(folder, name), "w", encoding="utf-8", newline="") as file:
            print(*(",".join(map(str, row)) for row in [columns, *rows]), sep="\n", file=file)


if __name__ == "__main__":
    main(sys.argv[1], sys.argv[2:] == ["broken"]) if len(sys.argv) > 1 else print(__doc__.strip())
