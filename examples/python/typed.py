"""A program whose types mypy checks: what the package says of its calls is what a program may rely on."""
from __future__ import annotations

from typing import Optional

import facing


def count(words: list[bytes]) -> dict[bytes, int]:
    with facing.CountsMap(16, 1) as shared:
        with shared.client() as client:
            for word in words:
                after: int = client.add(word)
                assert after > 0
            before: Optional[int] = client.put(b"a", 1)
            found: list[Optional[int]] = client.get_all([b"a", b"b"])
            assert before is None and found == [1, 2]
        with shared.close() as closed:
            return dict(closed)


def change() -> Optional[bytes]:
    with facing.BytesMap(16, 1) as shared, shared.client() as client:
        client.update({b"a": b"one"})
        longer: Optional[bytes] = client.update(b"a", lambda seen: (seen or b"") + b"!")
        text: str = client.get(b"b", "none")  # type: ignore[assignment]
        return longer if text == "none" else None


if __name__ == "__main__":
    is_right = count([b"b", b"b"]) == {b"a": 1, b"b": 2} and change() == b"one!"
    print("0 wrong" if is_right else "wrong")
    raise SystemExit(not is_right)
