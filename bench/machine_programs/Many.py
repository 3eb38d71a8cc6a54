def p0(n):
    i = t = 0
    while i < n:
        t = t + 1
        i = i + 1
    return t


def p1(n):
    i = t = 0
    while i < n:
        t = t + 2
        i = i + 1
    return t


def p2(n):
    i = t = 0
    while i < n:
        t = t + 3
        i = i + 1
    return t


def p3(n):
    i = t = 0
    while i < n:
        t = t + 4
        i = i + 1
    return t


def p4(n):
    i = t = 0
    while i < n:
        t = t + 5
        i = i + 1
    return t


def p5(n):
    i = t = 0
    while i < n:
        t = t + 6
        i = i + 1
    return t


def p6(n):
    i = t = 0
    while i < n:
        t = t + 7
        i = i + 1
    return t


def p7(n):
    i = t = 0
    while i < n:
        t = t + 8
        i = i + 1
    return t


def p8(n):
    i = t = 0
    while i < n:
        t = t + 9
        i = i + 1
    return t


def p9(n):
    i = t = 0
    while i < n:
        t = t + 10
        i = i + 1
    return t


def p10(n):
    i = t = 0
    while i < n:
        t = t + 11
        i = i + 1
    return t


def p11(n):
    i = t = 0
    while i < n:
        t = t + 12
        i = i + 1
    return t


def p12(n):
    i = t = 0
    while i < n:
        t = t + 13
        i = i + 1
    return t


def p13(n):
    i = t = 0
    while i < n:
        t = t + 14
        i = i + 1
    return t


def p14(n):
    i = t = 0
    while i < n:
        t = t + 15
        i = i + 1
    return t


def p15(n):
    i = t = 0
    while i < n:
        t = t + 16
        i = i + 1
    return t


print(p0(200000) + p1(200000) + p2(200000) + p3(200000) + p4(200000) + p5(200000) + p6(200000) + p7(200000) + p8(200000) + p9(200000) + p10(200000) + p11(200000) + p12(200000) + p13(200000) + p14(200000) + p15(200000))
