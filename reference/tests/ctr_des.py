# python3 ctr_des.py > ctr_des.txt
#
# DES in counter mode by pycryptodome, here of Debian's python3-pycryptodome
# 3.11.0+dfsg1-4: first counter, length, sealed text. The text of a length is the
# one with that number in the README.

from Cryptodome.Cipher import DES

KEY = bytes.fromhex("0123456789abcdef")
FIRSTS = [0, 1, 2**32 - 1, 2**56 - 1, 2**64 - 8192, 2**64 - 5, 2**64 - 2, 2**64 - 1]
LENGTHS = [0, 1, 7, 8, 9, 15, 16, 17, 24, 31, 63, 64, 65, 100]

for first in FIRSTS:
    for length in LENGTHS:
        text = bytes((53 * i + 31 * length + 7) % 256 for i in range(length))
        sealed = DES.new(KEY, DES.MODE_CTR, nonce=b"", initial_value=first).encrypt(text)
        print(f"{first:016x} {length} {sealed.hex() or '-'}")
