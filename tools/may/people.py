"""Who asks: users of this machine, with their groups."""
import grp
import os
import pwd
from typing import NamedTuple, Optional

from may.lists import Bad, quoted

# The number above it stands for nobody.
MAX_ID, MOST_DIGITS = 0xFFFFFFFE, 10


class Caller(NamedTuple):
    """A user: how it was named, its number, its own group and all its other groups."""

    name: str
    uid: int
    gid: int
    groups: tuple[int, ...]

    def has(self, group: int) -> bool:
        return group == self.gid or group in self.groups

    @property
    def shown(self) -> str:
        return f"{quoted(self.name)} ({self.uid}; groups {', '.join(map(str, [self.gid, *self.groups]))})"


def is_number(text: str) -> bool:
    """Whether a text is the number of a user or a group."""
    digits = text.lstrip("0") or text[-1:]
    return text.isascii() and text.isdigit() and len(digits) <= MOST_DIGITS and int(digits) <= MAX_ID


def number(text: str) -> int:
    if not is_number(text):
        raise Bad(f"{shortened(text)} is no number of a user or a group")
    return int(text.lstrip("0") or "0")


def shortened(text: str) -> str:
    return quoted(text) if len(text) <= 80 else f"{quoted(text[:40])}.. of {len(text):,} letters"


def account_of(user: str) -> Optional[pwd.struct_passwd]:
    """The account of a name, also of one in digits, or else of a number."""
    try:
        return pwd.getpwnam(user)
    except (KeyError, ValueError, UnicodeError):
        pass
    try:
        return pwd.getpwuid(number(user)) if is_number(user) else None
    except (KeyError, OverflowError):
        return None


def caller_of(user: str, groups: Optional[str]) -> Caller:
    """The user of a name or a number, with these groups, or with those that the system gives."""
    account = account_of(user)
    if account is None and not (user.isascii() and user.isdigit()):
        raise Bad(f"there is no user {shortened(user)}")
    name, uid = (account.pw_name, account.pw_uid) if account else (str(number(user)), number(user))
    if groups is not None:
        ids = [number(one) for one in groups.split(",")]
    elif account:
        ids = os.getgrouplist(account.pw_name, account.pw_gid)
        ids = [account.pw_gid, *(one for one in ids if one != account.pw_gid)]
    else:
        raise Bad(f"user {uid} has no account here, so tell its groups: --groups {uid}")
    return Caller(name, uid, ids[0], tuple(ids[1:]))


def accounts() -> list[Caller]:
    """Everybody with an account here, in the order of the system."""
    beside: dict[str, list[int]] = {}
    for group in grp.getgrall():
        for name in group.gr_mem:
            beside.setdefault(name, []).append(group.gr_gid)
    found = []
    for one in pwd.getpwall():
        groups = tuple(dict.fromkeys(group for group in beside.get(one.pw_name, ()) if group != one.pw_gid))
        found.append(Caller(one.pw_name, one.pw_uid, one.pw_gid, groups))
    return found
