"""What the model in tests/model prints where several workers serve a script, in an order that is drawn at random.

Each worker is a thread that stops before each step which may change the tables; of those that can go on one is drawn, and goes up to its
next stop. So any order of steps may come, and each step is whole."""
import random
import threading

from plans import Machine, types_of


class Shared(Machine):
    """The model's tables, which several threads change: what another made meanwhile is found, and is no event."""

    def __init__(self, loaders, files, stop):
        super().__init__(loaders, files)
        self.stop = stop

    def record(self, loader, name, home):
        self.stop()
        if (loader, name) not in self.records:
            super().record(loader, name, home)

    def make_equal(self, desc, a, b):
        for name in types_of(desc):
            self.stop()
            super().make_equal(f"L{name};", a, b)

    def impose(self, c):
        super().impose(c)
        self.stop()

    def tell(self, *words):
        if " ".join(words) not in self.history:
            super().tell(*words)


class Worker(threading.Thread):
    """Draws requests, and serves each once its round has begun."""

    def __init__(self, pool):
        super().__init__(daemon=True)
        self.pool, self.turn, self.request, self.done = pool, threading.Semaphore(0), 0, False

    def run(self):
        self.turn.acquire()
        try:
            while self.pool.drawn < len(self.pool.script):
                self.request, self.pool.drawn = self.pool.drawn, self.pool.drawn + 1
                self.pool.stop()
                answer = self.pool.machine.answer(*self.pool.script[self.request][1])
                self.pool.stop()
                self.pool.answers[self.request] = answer
        finally:
            self.done = True
            self.pool.stopped.release()


class Pool:
    """The workers, of which one goes on at a time."""

    def __init__(self, loaders, files, script, count, seed):
        self.script, self.answers, self.drawn = script, [None] * len(script), 0
        self.machine, self.random, self.stopped = Shared(loaders, files, self.stop), random.Random(seed), threading.Semaphore(0)
        self.workers = [Worker(self) for _ in range(count)]

    def stop(self):
        """Called by a worker: the others may go on."""
        self.stopped.release()
        threading.current_thread().turn.acquire()

    def may_go_on(self, worker):
        begun = next((place for (place, _), answer in zip(self.script, self.answers) if answer is None), None)
        return not worker.done and (worker.request >= len(self.script) or begun is None or self.script[worker.request][0] <= begun)

    def serve(self):
        for worker in self.workers:
            worker.start()
        while able := [worker for worker in self.workers if self.may_go_on(worker)]:
            self.random.choice(able).turn.release()
            self.stopped.acquire()
        lines = self.machine.history + [f"{i} {answer}" for i, answer in enumerate(self.answers, 1)]
        return "".join(line + "\n" for line in lines)


def printed(given, workers, seed):
    """What these workers print of loaders, files and script."""
    return Pool(*given, workers, seed).serve()
