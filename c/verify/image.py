"""A shared library as it is loaded: its functions, its constants, and its decoded instructions.

All of it is trusted: only code that nobody can write is decoded, only encodings that the table of
x86_64.py or aarch64.py has get a meaning, and the marks that a file asks for are there."""
from aarch64 import Arm
from elf import EXECUTE, Elf, need
from terms import Unknown
from x86_64 import X86

# By the numbers that ELF has for them.
PROCESSORS = {62: X86, 183: Arm}


class Image:
    """A library for a level of a processor, whose processors run no newer instructions, and how its
    functions are called: how streams lie in memory, and whether they may use the red zone."""

    def __init__(self, content, level, names, layout, red_zone):
        self.elf, self.level, self.layout, self.red_zone = Elf(content), level, layout, red_zone
        self.processor = PROCESSORS[self.elf.machine]
        need(level in self.processor.LEVELS, f'{self.processor.NAME} has no level {level}')
        self.functions, self.exported = self.elf.functions(names)
        self.check_marks()
        self.decoded = {}

    def check_marks(self):
        """A library may ask the processor to check where jumps go only if each function begins
        with the mark of a place to which they may go. No function jumps to a place that varies."""
        kind, known, mark = self.processor.MARKS
        for found, bits in self.elf.properties():
            need(found == kind and not bits & ~known or found in self.processor.TOLD,
                 f'a property that is unknown: {found:#x} is {bits:#x}')
            for name, address in self.functions.items() if found == kind and bits & 1 else ():
                need(self.elf.at(address, len(mark), EXECUTE) == mark,
                     f'the file asks for marks where jumps may go, and {name} has none')

    def instruction(self, address):
        if address not in self.decoded:
            need(address % self.processor.STEP == 0, f'{address:#x}: code that is not aligned')
            code = next(filter(None, (self.elf.at(address, size, EXECUTE)
                                      for size in range(self.processor.LONGEST, 0, -1))), b'')
            i = self.processor.decode(code, address)
            if i is None or not self.processor.is_known(i, self.level):
                told = f'{i.mnemonic} {i.text} ({i.bytes.hex()})' if i else code.hex()
                raise Unknown(f'{address:#x}: an encoding that is not known for {self.level}: '
                              f'{told}')
            self.decoded[address] = i
        return self.decoded[address]
