from lrcstore import Store

with Store(width=4) as store:  # fragments of 4 bytes; any thread may call it
    store.put("greeting", b"HELLO, WORLD")
    store.lose("greeting", 0, 0)  # fragments 0 and 2 of stripe 0 fail
    store.lose("greeting", 0, 2)
    print(store.get("greeting").decode())  # a degraded read
    store.mend()
