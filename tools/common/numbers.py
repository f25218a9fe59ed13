"""How transactions, and what they make, have their numbers."""
AGENTS, OPERATIONS = 64, 8


def transaction(agent: int, job: int) -> int:
    """The transaction of an agent's job, both counted from 0."""
    return AGENTS * job + agent


def job_of(t: int) -> tuple[int, int]:
    """The agent whose transaction it is, and the number of its job."""
    return t % AGENTS, t // AGENTS


def home(agent: int, job: int, servers: int) -> int:
    """The server that decides the transaction of an agent's job."""
    return (agent + job) % servers


def suite(t: int, place: int) -> int:
    """What a transaction makes by its operation at this place, counted from 0."""
    return OPERATIONS * t + place + 1


def maker_of(number: int) -> tuple[int, int]:
    """The transaction that made it, and the place of the operation, counted from 0."""
    return divmod(number - 1, OPERATIONS)
