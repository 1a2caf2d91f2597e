"""The tasks of a `testbed` network: what waits, for what, and how code that blocks takes its turns."""

from __future__ import annotations

import threading
import warnings
from typing import Any, Callable, ContextManager, Coroutine, Generator, Generic, List, Optional, Protocol, Tuple, TypeVar, Union

__all__ = ["Call", "Crowd", "Steps", "Task", "Thread", "Wait"]

T = TypeVar("T")
Steps = Union[Generator["Wait", None, T], Coroutine["Wait", None, T]]
# In nanoseconds, which the clock of a network counts.
MILLISECOND = 1_000_000


class Clock(Protocol):
    """What tasks need of their network."""

    clock: int

    def at(self, clock: int, act: Callable[[], None]) -> None:
        """Has something happen at a moment."""

    def turn_of(self, task: Task[Any]) -> ContextManager[None]:
        """Has it be a task's turn, in a `with`."""


class Crowd:
    """The tasks that wait at one place, in the order in which they came."""

    def __init__(self) -> None:
        self._waiting: List[Tuple[Task[Any], Wait]] = []

    def join(self, task: Task[Any], wait: Wait) -> None:
        """A task waits here from now on."""
        self._waiting.append((task, wait))

    def tell(self) -> None:
        """Something has changed here: each task goes on for which that holds for which it waits."""
        waiting, self._waiting = self._waiting, []
        for task, wait in waiting:
            if not task.waits(wait):
                continue  # its time was over before
            if wait.holds():
                task.resume()
            else:
                self._waiting.append((task, wait))


class Wait:
    """What a task waits for: that `holds` answers True, asked whenever its crowd is told, or that the clock shows `limit` nanoseconds."""

    def __init__(self, crowd: Optional[Crowd], holds: Callable[[], bool], limit: Optional[int] = None) -> None:
        self.crowd, self.holds, self.limit = crowd, holds, limit


class Call(Generic[T]):
    """A call that may have to wait: `await` it, or `yield from` it. Nothing of it is done before."""

    def __init__(self, steps: Generator[Wait, None, T]) -> None:
        self._steps: Optional[Generator[Wait, None, T]] = steps

    def __iter__(self) -> Generator[Wait, None, T]:
        steps, self._steps = self._steps, None
        if steps is None:
            raise RuntimeError("a call is waited for once")
        return steps

    __await__ = __iter__

    def __del__(self) -> None:
        if self._steps is not None:
            warnings.warn(f"nothing waited for the call {getattr(self._steps, '__name__', '')}, so it was never made", RuntimeWarning)


class Task(Generic[T]):
    """What the network runs: made by its `task` and `blocking`. Another task waits for it as for a Call, and has what it returned."""

    def __init__(self, network: Clock, steps: Steps[T], thread: Optional[Thread[T]] = None) -> None:
        self.network, self.thread, self.done = network, thread, False
        self._steps, self._crowd = steps, Crowd()
        self._wait: Optional[Wait] = None
        self._result: Any = None
        self._error: Optional[BaseException] = None
        self.resume()

    def __iter__(self) -> Generator[Wait, None, T]:
        while not self.done:
            yield Wait(self._crowd, lambda: self.done)
        return self.result()

    __await__ = __iter__

    def result(self) -> T:
        """What it returned; what it raised, it raises. RuntimeError where it isn't done."""
        if not self.done:
            raise RuntimeError("the task isn't done")
        if self._error is not None:
            raise self._error
        result: T = self._result
        return result

    def waits(self, wait: Wait) -> bool:
        """Whether it still waits for that."""
        return self._wait is wait

    def resume(self) -> None:
        """It goes on at this moment, behind what happens at it already."""
        self._wait = None
        self.network.at(self.network.clock, self._turn)

    def close(self) -> None:
        """Ends it where it waits: GeneratorExit is raised there."""
        self.done = True
        self._steps.close()

    def _turn(self) -> None:
        if self.done:
            return
        try:
            with self.network.turn_of(self):
                wait = self._steps.send(None)
        except StopIteration as end:
            self._end(end.value, None)
        except BaseException as error:
            self._end(None, error)
            raise
        else:
            self._wait = wait
            if wait.crowd is not None:
                wait.crowd.join(self, wait)
            if wait.limit is not None:
                self.network.at(wait.limit, lambda: self._time_is_over(wait))

    def _time_is_over(self, wait: Wait) -> None:
        if self.waits(wait):
            self.resume()

    def _end(self, result: Any, error: Optional[BaseException]) -> None:
        self.done, self._result, self._error = True, result, error
        self._crowd.tell()


class _Stopped(BaseException):
    """The network is closed, so a thread's work ends where it waits."""


class Thread(Generic[T]):
    """A thread for work that blocks, hand in hand with the network: a step hands over to it, and it hands back where it waits. One of both runs, ever."""

    def __init__(self, work: Callable[[], T]) -> None:
        self._work = work
        self._go, self._back = threading.Semaphore(0), threading.Semaphore(0)
        self._wait: Optional[Wait] = None
        self._result: List[T] = []
        self._error: Optional[BaseException] = None
        self._ended = self._stopped = False
        self._thread = threading.Thread(target=self._main, daemon=True)

    def _main(self) -> None:
        self._go.acquire()
        try:
            if not self._stopped:
                self._result.append(self._work())
        except BaseException as error:  # `steps` raises it, in the thread of the network
            self._error = error
        self._ended = True
        self._back.release()

    def steps(self) -> Generator[Wait, None, T]:
        """The work, as the network runs it."""
        self._thread.start()
        try:
            while True:
                self._go.release()
                self._back.acquire()
                if self._ended:
                    break
                assert self._wait is not None
                yield self._wait
        finally:
            if not self._ended:
                self._stopped = True
                self._go.release()
            self._thread.join()
        if self._error is not None:
            raise self._error
        return self._result[0]

    def wait(self, wait: Wait) -> None:
        """In the thread: hands over to the network until that holds."""
        if not self._stopped:
            self._wait = wait
            self._back.release()
            self._go.acquire()
        if self._stopped:
            raise _Stopped
