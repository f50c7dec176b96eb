#!/usr/bin/env python3
"""Prints crates/sent_test/stdin: words of GNU Radio's polar encoder, which are in the bit-reversed order, with their masks and payloads.

It runs where GNU Radio is installed (on Debian: apt-get install --no-install-recommends gnuradio), with the Python that has it, and was run
with GNU Radio 3.10.5. Masks and payloads are drawn from a fixed seed.
Run: /usr/bin/python3 tools/gnuradio_vectors.py > crates/sent_test/stdin

A line of the file is one of these:
  # TEXT                     nothing
  word MASK PAYLOAD WORD     a case, each a row of digits: frozen positions are 1 in the mask
  = NAME                     ends a group of cases"""
import random

from gnuradio import blocks, fec, gr

SIZES = {32: 12, 64: 8, 128: 4, 256: 3, 512: 2, 1024: 2}       # N, from GNU Radio's smallest, and the number of words


def encoded(mask, payload):
    """The word of the payload's bits at the unfrozen positions and zeros elsewhere."""
    frozen = [i for i, digit in enumerate(mask) if digit]
    coder = fec.polar_encoder.make(len(mask), len(payload), frozen, [0] * len(frozen), False)
    graph, source, sink = gr.top_block(), blocks.vector_source_b(payload), blocks.vector_sink_b()
    graph.connect(source, fec.encoder(coder, gr.sizeof_char, gr.sizeof_char), sink)
    graph.run()
    return list(sink.data())


def digits(row):
    return ''.join(map(str, row))


def words():
    drawn = random.Random(13)
    for n, count in SIZES.items():
        for _ in range(count):
            unfrozen = set(drawn.sample(range(n), drawn.randrange(1, n)))
            mask = [int(i not in unfrozen) for i in range(n)]
            payload = [drawn.randrange(2) for _ in unfrozen]
            payload[0] = 1               # so that no word is zero
            word = encoded(mask, payload)
            assert len(word) == n
            yield f'word {digits(mask)} {digits(payload)} {digits(word)}'
        yield f'= N {n}'


def main():
    print('# Written by tools/gnuradio_vectors.py, which says what the lines mean.')
    print('\n'.join(words()))


main()
