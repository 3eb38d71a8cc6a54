N = 8
column = [False] * N
up = [False] * (2 * N)
down = [False] * (2 * N)
found = 0


def place(row):
    global found
    if row == N:
        found += 1
        return
    for c in range(N):
        if not column[c] and not up[row + c] and not down[row - c + N]:
            column[c] = up[row + c] = down[row - c + N] = True
            place(row + 1)
            column[c] = up[row + c] = down[row - c + N] = False


for _ in range(40):
    place(0)
print(found)
