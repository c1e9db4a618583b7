from lrcstore import coder

text = b"HELLO, FRAGMENTS OF DATA"
stripes = [dict(enumerate(each)) for each in coder.split(text, width=1)]  # two, of 12 bytes each
plan = coder.Plan(12, [0, 1], [0, 1])  # for each stripe that has lost fragments 0 and 1

for fragments in stripes:
    del fragments[0], fragments[1]
    fragments.update(plan.decode(fragments))

whole = [[fragments[i] for i in range(16)] for fragments in stripes]
print(coder.join(whole, len(text)).decode())  # raises Inconsistent if a fragment is wrong
