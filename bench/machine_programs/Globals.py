seed = 7
hits = 0
rounds = 0
bins = [0] * 16


def throw():
    global seed, hits, rounds
    for _ in range(500000):
        seed = (seed * 1277 + 13849) % 65536
        if seed % 16 < 5:
            hits += 1
        else:
            rounds += 1
        bins[seed // 4096] += 1


throw()
throw()
print(f"{hits}{rounds:8}" + "".join(f"{n:8}" for n in bins))
