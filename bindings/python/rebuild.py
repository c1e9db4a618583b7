from lrcstore import coder

text = b"HELLO, FRAGMENTS OF DATA"
data = [text[i : i + 2] for i in range(0, 24, 2)]
fragments = dict(enumerate(data + coder.encode(data)))

del fragments[0], fragments[1]

print((coder.rebuild(12, fragments, 0) + coder.rebuild(12, fragments, 1)).decode())
