"""ML-KEM by the algorithms of FIPS 203, a function for each, with hashlib's SHA-3 and SHAKE.

With it tests/messages compares routines/c/mlkem.vectors. It gives the vectors that Botan 3.7.1 keeps of NIST's, 25 of
each kind, for keys and encapsulation, and what OpenSSL 4.0.0 gives for ML-KEM-768 and ML-KEM-1024.
"""

import hashlib

N, Q = 256, 3329


class Kind:
    """A parameter set (section 8)."""

    def __init__(self, k, eta1, du, dv):
        self.k, self.eta1, self.du, self.dv = k, eta1, du, dv


KINDS = {"mlkem_512": Kind(2, 3, 10, 4), "mlkem_768": Kind(3, 2, 10, 4), "mlkem_1024": Kind(4, 2, 11, 5)}
ETA2 = 2


def H(data):
    return hashlib.sha3_256(data).digest()


def J(data):
    return hashlib.shake_256(data).digest(32)


def G(data):
    both = hashlib.sha3_512(data).digest()
    return both[:32], both[32:]


def prf(eta, seed, number):
    return hashlib.shake_256(seed + bytes([number])).digest(64 * eta)


def byte_encode(d, numbers):
    """Algorithm 5: the numbers' bits, the lowest first."""
    whole = sum(number << d * place for place, number in enumerate(numbers))
    return whole.to_bytes(32 * d, "little")


def byte_decode(d, data):
    """Algorithm 6: modulo Q where d is 12."""
    whole, modulus = int.from_bytes(data, "little"), 1 << d if d < 12 else Q
    return [(whole >> d * place & (1 << d) - 1) % modulus for place in range(N)]


def sample_ntt(seed):
    """Algorithm 7."""
    data, found, at = hashlib.shake_128(seed).digest(168 * 20), [], 0
    while len(found) < N:
        first, second, third = data[at : at + 3]
        found += [number for number in (first + 256 * (second % 16), second // 16 + 16 * third) if number < Q]
        at += 3
    return found[:N]


def sample_cbd(eta, data):
    """Algorithm 8."""
    bits = [byte >> place & 1 for byte in data for place in range(8)]
    sums = [sum(bits[at : at + eta]) for at in range(0, len(bits), eta)]
    return [(sums[2 * at] - sums[2 * at + 1]) % Q for at in range(N)]


def reversed_bits(number):
    return int(f"{number:07b}"[::-1], 2)


# Transforms: f modulo each X^2 - 17^(2 BitRev(i) + 1) (section 4.3), by its definition.
ROOTS = [pow(17, 2 * reversed_bits(i) + 1, Q) for i in range(N // 2)]


def ntt(f):
    """The remainder of f by each of these polynomials: in it X^2 is the root."""
    powers = [[pow(root, j, Q) for j in range(N // 2)] for root in ROOTS]
    return [sum(f[2 * j + odd] * power[j] for j in range(N // 2)) % Q for power in powers for odd in (0, 1)]


def inverse_ntt(f):
    """The polynomial of which these are the remainders: the transform's matrix is inverted by its conjugate."""
    found = []
    for j in range(N // 2):
        weights = [pow(root, -j, Q) for root in ROOTS]
        sums = [sum(f[2 * i + odd] * weight for i, weight in enumerate(weights)) for odd in (0, 1)]
        found += [one * pow(N // 2, -1, Q) % Q for one in sums]
    return found


def product(f, g):
    """Algorithm 11: products of pairs, modulo each of these polynomials."""
    found = []
    for i, root in enumerate(ROOTS):
        (a0, a1), (b0, b1) = f[2 * i : 2 * i + 2], g[2 * i : 2 * i + 2]
        found += [(a0 * b0 + a1 * b1 * root) % Q, (a0 * b1 + a1 * b0) % Q]
    return found


def total(*polynomials):
    return [sum(numbers) % Q for numbers in zip(*polynomials)]


def inner(row, column):
    return total(*(product(f, g) for f, g in zip(row, column)))


def compress(d, f):
    """To the nearest of 2^d steps, halves upward."""
    return [((number << d + 1) + Q) // (2 * Q) % (1 << d) for number in f]


def decompress(d, f):
    return [(2 * Q * number + (1 << d)) >> d + 1 for number in f]


def matrix(kind, rho):
    """The entry in row i and column j is sampled from rho, j, i."""
    return [[sample_ntt(rho + bytes([j, i])) for j in range(kind.k)] for i in range(kind.k)]


def polynomials(kind, d, data):
    return [byte_decode(d, data[32 * d * i : 32 * d * (i + 1)]) for i in range(kind.k)]


def key_gen(kind, d, z):
    """Algorithms 13 and 16: the encapsulation key and the decapsulation key."""
    rho, sigma = G(d + bytes([kind.k]))
    noise = [ntt(sample_cbd(kind.eta1, prf(kind.eta1, sigma, number))) for number in range(2 * kind.k)]
    s, e = noise[: kind.k], noise[kind.k :]
    t = [total(inner(row, s), e[i]) for i, row in enumerate(matrix(kind, rho))]
    ek = b"".join(byte_encode(12, f) for f in t) + rho
    return ek, b"".join(byte_encode(12, f) for f in s) + ek + H(ek) + z


def encrypt(kind, ek, message, r):
    """Algorithm 14."""
    t, rho = polynomials(kind, 12, ek), ek[384 * kind.k :]
    y = [ntt(sample_cbd(kind.eta1, prf(kind.eta1, r, number))) for number in range(kind.k)]
    e1 = [sample_cbd(ETA2, prf(ETA2, r, kind.k + number)) for number in range(kind.k)]
    e2 = sample_cbd(ETA2, prf(ETA2, r, 2 * kind.k))
    columns = zip(*matrix(kind, rho))
    u = [total(inverse_ntt(inner(column, y)), e1[i]) for i, column in enumerate(columns)]
    v = total(inverse_ntt(inner(t, y)), e2, decompress(1, byte_decode(1, message)))
    return b"".join(byte_encode(kind.du, compress(kind.du, f)) for f in u) + byte_encode(kind.dv, compress(kind.dv, v))


def decrypt(kind, dk, c):
    """Algorithm 15."""
    u = [decompress(kind.du, f) for f in polynomials(kind, kind.du, c)]
    v = decompress(kind.dv, byte_decode(kind.dv, c[32 * kind.du * kind.k :]))
    less = inverse_ntt(inner(polynomials(kind, 12, dk), [ntt(f) for f in u]))
    return byte_encode(1, compress(1, [(a - b) % Q for a, b in zip(v, less)]))


def encaps(kind, ek, m):
    """Algorithm 17 and section 7.2: the ciphertext and the shared key, None where the modulus check fails."""
    encoded = b"".join(byte_encode(12, f) for f in polynomials(kind, 12, ek))
    if encoded != ek[: 384 * kind.k]:
        return None
    key, r = G(m + H(ek))
    return encrypt(kind, ek, m, r), key


def decaps(kind, dk, c):
    """Algorithm 18 and section 7.3: the shared key, None where the hash check fails."""
    secret, ek = dk[: 384 * kind.k], dk[384 * kind.k : 768 * kind.k + 32]
    h, z = dk[768 * kind.k + 32 : 768 * kind.k + 64], dk[768 * kind.k + 64 :]
    if H(ek) != h:
        return None
    message = decrypt(kind, secret, c)
    key, r = G(message + h)
    return key if encrypt(kind, ek, message, r) == c else J(z + c)


def outcome(name, operation, key, message):
    """What a line of the vectors has: both keys, the ciphertext and the shared key or nothing, the shared key."""
    kind = KINDS[name]
    if operation == "encapsulate":
        return b"".join(encaps(kind, key, message) or ())
    ek, dk = key_gen(kind, key[:32], key[32:])
    return ek + dk if operation == "keys" else decaps(kind, dk, message)
