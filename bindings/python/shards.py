from concurrent.futures import ThreadPoolExecutor

from lrcstore import Store

with Store(width=4, shards=16) as store:  # without journals; any thread may call it
    for number in range(1000):
        name = f"greeting-{number}"
        store.put(name, b"HELLO, WORLD")
        store.lose(name, 0, 0)  # fragments 0 and 2 of stripe 0 fail
        store.lose(name, 0, 2)
    text = store.get("greeting-7").decode()  # a degraded read
    with ThreadPoolExecutor() as threads:
        menders = [threads.submit(store.mend) for _ in range(2)]  # they share the work
    repaired = sum(mender.result() for mender in menders)
    print(f"{text}: {repaired} repaired, {store.numbers().lost} lost")
