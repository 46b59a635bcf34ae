"""What those who serve share: works drawn from a pool and handed back. These are rows of crates/sb_tables with greater numbers."""
import rowing

CRATE = "sb_tables"


def measure(runs):
    """Draws per second, by one seat and by eight, each in a thread of its own."""
    rowing.build(CRATE, "data/pool.rows")
    for seats in (1, 8):
        draws = 4_000_000
        row = "Pool::close 64 | %d | %d" % (seats, draws // seats)
        seconds = rowing.seconds_of(runs, CRATE, row, "draws %d works 64 in order true" % draws)
        print("pool: %d draws and returns per second by %d seats" % (draws / seconds, seats))
