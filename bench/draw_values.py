#!/usr/bin/env python3
"""Prints cards of draws as Python's hashlib and whole numbers give them: the values that the tests of sampler expect."""

import hashlib


def card_of(digest: bytes, cards: int) -> int:
    """The digest as one number, most significant byte first, modulo the number of cards, plus 1."""
    return int.from_bytes(digest, "big") % cards + 1


def drawn_card(seed: bytes, k: int, cards: int) -> int:
    """The card of draw number k, counted from 1."""
    return card_of(hashlib.sha256(seed + b"," + str(k).encode()).digest(), cards)


def main() -> None:
    for text, cards in [(b"abc", 12), (b"abc", 256), (b"", 256), (b"", 16), (b"", 1)]:
        print(f"digest of {text!r}, {cards} cards: {card_of(hashlib.sha256(text).digest(), cards)}")
    for cards in [1, 12, 1_000_000]:
        drawn = [drawn_card(b"2024", k, cards) for k in [1, 9, 10, 99_999, 100_000]]
        print(f"seed 2024, {cards} cards, draws 1, 9, 10, 99999, 100000: {drawn}")
    longest = b" ~" * 32
    print(f"longest seed, {2**32 - 1} cards, draw {2**64 - 1}: {drawn_card(longest, 2**64 - 1, 2**32 - 1)}")


main()
