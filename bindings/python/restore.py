from lrcstore import Status, Store, StoreError

with Store(width=4) as store:  # fragments of 4 bytes
    store.put("greeting", b"HELLO, WORLD")
    version = store.hold("greeting")
    copies = [version.fragment(0, number) for number in range(16)]  # one on each device
    for number in (0, 1, 2, 6, 7):  # five devices fail
        store.lose("greeting", 0, number)
    try:
        store.get("greeting")
    except StoreError as error:
        assert error.status is Status.UNRECOVERABLE
    store.restore(version, 0, 2, copies[2])  # one of them is back
    repaired = store.mend()
    print(f"{repaired} repaired: {store.get('greeting').decode()}")
