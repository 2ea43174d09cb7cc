"""A session of 55 devices and 150 requests for nodes without a level, so that each device is a candidate of each.

A third of the devices are asked for their lists, and the answers, which name no node that is asked for, are not kept;
the others serve every node. Each device runs one agent at a time, so most queries wait. Each making gives the same
session.
"""
DEVICES, REQUESTS, EXITS = 55, 150, 85


def session():
    lines = []
    for n in range(DEVICES):
        check = 'dynamic-list' if n % 3 == 0 else 'none'
        lines.append('0 device d%d pcmk_host_check=%s priority=%d' % (n, check, n % 7))
    lines[0:0] = ['0 agent fence_model {"actions":["on","off","reboot","list"]}']
    for n in range(REQUESTS):
        lines.append('%d ask c%d off n%d' % (10 + n, n % 8, n))
    for run in range(EXITS):
        lines.append('%d exit %d 0 other' % (1000 + 10 * run, run))
    return ('\n'.join(lines) + '\n').encode()
