"""The devices and nodes of a mixed session, and the lines that tell them."""

NODES = 500
OWN, BY_PATTERN = 100, 400
RACKS = 30
STATIC, DEVICES = 96, 100
LIMITS = [1, 2, 3, 4, None]
KEEP = 2_000


def node(n):
    return 'rack%d-%d' % (n % RACKS, n) if OWN <= n < BY_PATTERN else 'node%d' % n


def levels(n):
    """The devices of a node's levels; a node by pattern has those of its rack."""
    start = n if n < OWN else 7 * (n % RACKS)
    a, b, c = (start * 3 % STATIC, (start * 5 + 1) % STATIC, (start * 5 + 3) % STATIC)
    return [[a], [b, c]] if n < OWN else [[a, b], [c]]


def delay(device):
    """The base and the greatest delay of a device, in milliseconds."""
    return (10, 50) if device % 3 == 0 and device < STATIC else (0, 0)


def keep(device):
    return KEEP if device % 2 else 0


def set_up():
    yield '0 agent fence_list {"actions":["on","off","reboot","list"]}'
    for device in range(DEVICES):
        limit = '' if device % 5 == 0 else ' pcmk_action_limit=%s' % (LIMITS[device % 5] or -1)
        if device < STATIC:
            options = ' fence_fix pcmk_host_check=static-list pcmk_host_list=none'
            options += ' pcmk_delay_base=%dms pcmk_delay_max=%dms' % delay(device) if delay(device)[0] else ''
        else:
            options = ' fence_list pcmk_list_keep=%dms' % keep(device)
        yield '0 device d%d%s%s' % (device, options, limit)
    for n in range(OWN + RACKS):
        target = node(n) if n < OWN else '~^rack%d-' % (n % RACKS)
        for index, devices in enumerate(levels(n), 1):
            yield '0 level %d %s %s' % (index, target, ','.join('d%d' % device for device in devices))
