"""Parts of generated model files, for the generators of conformance/ and of reference/: the bytes of a file from its
fields, and rates, rewards, times and starting weights drawn from the whole range of document 01 with S-5 of
document 02."""

MAX_TOLERANCE = 100_000_000
MAX_REWARD = 1_000_000
MAX_ROW_SUM = 10_000_000
MAX_X = 256_000_000
MAX_WORD = 2**32 - 1
ALL_WEIGHT = 1_000_000      # what the starting weights of version 2 sum to


# --- Bytes ----------------------------------------------------------------------------------

def words(numbers):
    """Numbers of 4 bytes each, one after the other."""
    return b"".join(each.to_bytes(4, "big") for each in numbers)


def build(version, M, R, eps, T, rewards, rates, weights=()):
    """The bytes of a model file. rates holds one row per state: the rates to each other
    state, j rising, the diagonal left out. weights are the starting weights of version 2."""
    body = bytes([version, M, R]) + words([eps, T, *weights, *rewards])
    body += b"".join(map(words, rates))
    return len(body).to_bytes(2, "big") + body


def valid(M, R, eps, T, rewards, rates):
    """The fields of an accepted file, to be changed one by one and then built."""
    return dict(version=1, M=M, R=R, eps=eps, T=T, rewards=rewards, rates=rates)


def in_version_2(fields, weights):
    """The fields of a file as those of version 2 with these starting weights."""
    return dict(fields, version=2, weights=weights)


def in_either_version(rng, fields):
    """The fields as they are, or as those of version 2."""
    return in_version_2(fields, random_starts(rng, fields["M"])) if rng.random() < 0.5 else fields


# --- Random parts -----------------------------------------------------------------------------

def log_uniform(rng, low, high):
    """A whole number from low to high, each order of magnitude about as likely."""
    return max(low, min(high, int(low * (high / low) ** rng.random() + 0.5)))


def split(rng, total, parts):
    """`parts` whole numbers of at least 0 that sum to total."""
    cuts = sorted(rng.randint(0, total) for _ in range(parts - 1))
    return [b - a for a, b in zip([0] + cuts, cuts + [total])]


def row_to(rng, M, total, fill):
    """M - 1 rates that sum to total, over about the share `fill` of the other states."""
    row = [0] * (M - 1)
    if M > 1 and total > 0:
        count = max(1, min(M - 1, round(fill * (M - 1))))
        for place, part in zip(rng.sample(range(M - 1), count), split(rng, total, count)):
            row[place] = part
    return row


def random_rates(rng, M, E, fill=1.0, absorbing=0.1):
    """Rows with the largest sum exactly E (for M > 1), and the others anywhere up to E."""
    busiest = rng.randrange(M)
    rates = []
    for i in range(M):
        if i == busiest:
            total = E
        elif rng.random() < absorbing:
            total = 0
        else:
            total = rng.choice([E, rng.randint(0, E), log_uniform(rng, 1, E)])
        rates.append(row_to(rng, M, total, fill))
    return rates


def random_rewards(rng, M, top=None):
    """M reward rates, not all 0, the largest of them exactly `top` where it is given."""
    if top is None:
        top = rng.choice([1, 2, 7, 999_983, MAX_REWARD, log_uniform(rng, 1, MAX_REWARD)])
    rewards = [rng.choice([0, top, rng.randint(0, top), rng.randint(0, top)]) for _ in range(M)]
    rewards[rng.randrange(M)] = top
    return rewards


def random_tolerance(rng):
    return rng.choice([1, MAX_TOLERANCE, log_uniform(rng, 1, MAX_TOLERANCE)])


def random_time(rng, E):
    """A time with E * T in the limit."""
    most = MAX_X // E
    return rng.choice([1, most, log_uniform(rng, 1, most), log_uniform(rng, 1, most)])


def repair_shop_parts(rng, M):
    """Rewards and rates of M - 1 equal units with one repair crew, any failure and repair rate; state i, counted from
    0, has i of them down, and the reward is the number of working units."""
    failure, repair = rng.randint(1, 100_000), rng.randint(1, 1_000_000)
    rates = [[0] * (M - 1) for _ in range(M)]
    for down in range(M):
        if down < M - 1:
            rates[down][down] = (M - 1 - down) * failure       # to down + 1
        if down > 0:
            rates[down][down - 1] = repair                     # to down - 1
    return [M - 1 - down for down in range(M)], rates


def factors(X):
    """E and T with E * T = X: T as small as the limit of E lets it be, or X where it would pass 2,000."""
    T = next((T for T in range(1, 2_001) if X % T == 0 and X // T <= MAX_ROW_SUM), X)
    return X // T, T


def fields_for(rng, M, E, T, R=None, eps=None, rewards=None, fill=None):
    """The fields of a random accepted file with the uniformization rate E (1 where M = 1)."""
    if fill is None:
        fill = rng.choice([0.2, 0.5, 1.0])
    return valid(M, R or rng.randint(1, 8), eps or random_tolerance(rng), T,
                 rewards or random_rewards(rng, M), random_rates(rng, M, E, fill))


# --- Starting weights (version 2) ---------------------------------------------------------------

def on_one(M, place):
    """All weight on one state, counted from 0."""
    return [ALL_WEIGHT if k == place else 0 for k in range(M)]


def with_zeros(rng, M):
    """Weight on two states or more, and none on one or more; of one state or two, on one."""
    weights = [0] * M
    count = rng.randint(2, M - 1) if M > 2 else 1
    for place, part in zip(rng.sample(range(M), count), split(rng, ALL_WEIGHT, count)):
        weights[place] = part
    return weights


def even(rng, M):
    """The same on every state, as far as it goes."""
    each, left = divmod(ALL_WEIGHT, M)
    return [each + (k < left) for k in range(M)]


def uneven(rng, M):
    """Weight on every state."""
    return [1 + part for part in split(rng, ALL_WEIGHT - M, M)]


def nearly_on_one(rng, M):
    """All but a millionth on the first or the last state (of one state: all)."""
    place = rng.choice([0, M - 1])
    weights = on_one(M, place)
    weights[place] -= 1
    weights[rng.choice([k for k in range(M) if k != place] or [place])] += 1
    return weights


# Starting weights that sum to 1,000,000, as functions of rng and M.
STARTS = {
    "on-first": lambda rng, M: on_one(M, 0),
    "on-last": lambda rng, M: on_one(M, M - 1),
    "on-one": lambda rng, M: on_one(M, rng.randrange(M)),
    "nearly-on-one": nearly_on_one,
    "with-zeros": with_zeros,
    "even": even,
    "uneven": uneven,
}


def random_starts(rng, M):
    return STARTS[rng.choice([*STARTS])](rng, M)
