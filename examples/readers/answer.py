"""Reads an answer of venum in Python.

    ./venum alone < examples/involutions.venum > s3.answer
    python3 examples/readers/answer.py s3.answer

In a program of your own: `answer = read_answer(open("s3.answer").read())`. Vectors are lists of numbers from 0 to prime - 1, a matrix is the list of
its rows, and row j of `answer.matrices["a"]` is the j-th basis vector times a. Row vectors are multiplied by matrices from the right.
"""

import sys
from dataclasses import dataclass


@dataclass
class Answer:
    prime: int
    letters: list       # the names of the letters, in order
    closed: int         # the level at which the enumeration closed
    basis: list         # the basis words, as text
    images: list        # images[i] is the row vector of the module generator e(i+1)
    matrices: dict      # matrices[name] is the list of the rows of this letter's matrix

    @property
    def dimension(self):
        return len(self.basis)

    def times(self, row, name):
        """A row vector times a letter."""
        matrix = self.matrices[name]
        return [sum(a * line[j] for a, line in zip(row, matrix)) % self.prime for j in range(self.dimension)]

    def word(self, text):
        """The row vector of a word such as `e1*a*b`."""
        generator, *letters = text.split("*")
        row = self.images[int(generator[1:]) - 1]
        for name in letters:
            row = self.times(row, name)
        return row


def read_answer(text):
    lines = iter(text.splitlines())

    def words(head):
        first, *rest = next(lines).split(" ")
        if first != head:
            raise ValueError(f"{head} expected, and not {first}")
        return rest

    def number(head):
        return int(words(head)[0])

    def vector(head):
        return [int(entry) for entry in words(head)]

    if words("venum-answer") != ["1"]:
        raise ValueError("not an answer of version 1")
    prime, letters = number("prime"), words("letters")
    generators, closed, dimension = number("module"), number("closed"), number("dimension")
    basis = [words("basis")[0] for _ in range(dimension)]
    images = [vector("image") for _ in range(generators)]
    matrices = {}
    for name in letters:
        if words("letter") != [name]:
            raise ValueError(f"the matrix of {name} expected")
        matrices[name] = [vector("row") for _ in range(dimension)]
    words("end")
    return Answer(prime, letters, closed, basis, images, matrices)


if __name__ == "__main__":
    answer = read_answer(open(sys.argv[1]).read())
    print(f"dimension {answer.dimension} over the field of {answer.prime} elements")
    for name in answer.letters:
        print(f"{name}:")
        for row in answer.matrices[name]:
            print(*row)
    # Each basis word has its own unit row as its value.
    for place, word in enumerate(answer.basis):
        assert answer.word(word) == [int(j == place) for j in range(answer.dimension)]
