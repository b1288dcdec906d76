"""What the program mix_vectors must print: the first outputs of SplitMix64, 16
hex digits a line: four from the seed 0, then five from the seed 1234567.

The generator is written here from its published C, Vigna's splitmix64.c:
    uint64_t z = (x += 0x9e3779b97f4a7c15);
    z = (z ^ (z >> 30)) * 0xbf58476d1ce4e5b9;
    z = (z ^ (z >> 27)) * 0x94d049bb133111eb;
    return z ^ (z >> 31);
and its outputs are held to published ones before they are printed."""

MASK = (1 << 64) - 1

PUBLISHED = {
    0: [0xE220A8397B1DCDAF, 0x6E789E6AA1B965F4, 0x06C45D188009454F, 0xF88BB8A8724C81EC],
    1234567: [
        6457827717110365317,
        3203168211198807973,
        9817491932198370423,
        4593380528125082431,
        16408922859458223821,
    ],
}


def outputs(x, count):
    for _ in range(count):
        x = (x + 0x9E3779B97F4A7C15) & MASK
        z = x
        z = ((z ^ (z >> 30)) * 0xBF58476D1CE4E5B9) & MASK
        z = ((z ^ (z >> 27)) * 0x94D049BB133111EB) & MASK
        yield z ^ (z >> 31)


for seed, published in PUBLISHED.items():
    made = list(outputs(seed, len(published)))
    assert made == published, (seed, made)
    for value in made:
        print("%016x" % value)
