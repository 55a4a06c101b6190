"""Amounts as people read them."""


def dollars(cents: int) -> str:
    """Returns an amount of cents in dollars, such as `-$1,500.00`."""
    return f"{'-' if cents < 0 else ''}${abs(cents) // 100:,}.{abs(cents) % 100:02}"
