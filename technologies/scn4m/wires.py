"""Wires of a cell: a maze router on a grid of one lambda, for poly and metal 1 to 3, that keeps scmos's rules of spacing.

A net takes its cheapest way, if need be through wires of others, whose nets are then routed anew; what is in the way again and again
becomes dearer. All lengths are in lambda. A node is a layer, an x and a y; a way is a list of nodes. Shapes are boxes x1 y1 x2 y2, and
those of a contact are its 4 x 4, not its cut.
"""
import heapq

import numpy

POLY, METAL1, METAL2, METAL3 = 0, 1, 2, 3
NAMES = {POLY: "poly", METAL1: "metal1", METAL2: "metal2", METAL3: "metal3"}
# A shape at a node covers, from the node, this box: on metal 3, which is wider than a contact, one that begins a lambda before it.
BOX = {"poly": (0, 2), "metal1": (0, 4), "metal2": (0, 4), "metal3": (-1, 5), "cpoly": (0, 4), "via1": (0, 4), "via2": (0, 4)}
MARGIN = {"poly": 1, "metal1": 2, "metal2": 2, "metal3": 2, "cpoly": 2, "via1": 2, "via2": 2}  # from the sides of the cell
STEP = {POLY: 3, METAL1: 1, METAL2: 1, METAL3: 1}
UP = {POLY: ("cpoly", 6), METAL1: ("via1", 8), METAL2: ("via2", 12)}  # the contact to the layer above, and its cost
NEVER = 1 << 20  # the price of a place that is closed
TRIES = 24  # of a way, before another net has to make room
# How far a shape stays from shapes of other nets, and from all shapes.
FROM_OTHERS = {
    "poly": [("poly", 3), ("cpoly", 3)], "metal1": [("metal1", 3)], "metal2": [("metal2", 4)], "metal3": [("metal3", 4)],
    "cpoly": [("poly", 3), ("cpoly", 3)], "via1": [], "via2": [],
}
FROM_ALL = {
    "poly": [("active", 1), ("via1", 1)], "metal1": [], "metal2": [], "metal3": [],
    "cpoly": [("active", 1), ("contact", 2), ("via1", 1), ("cpoly", 2)], "via1": [("active", 1), ("poly", 1), ("via2", 0), ("via1", 2)],
    "via2": [("via1", 0), ("via2", 2)],
}


class Grid:
    """What it costs a net to have a shape at a place."""

    def __init__(self, size, net, fixed, routes, prices, history, highest):
        self.width, self.height = size
        masks = {name: self.mask(name, net, fixed, routes, prices) + history[name] for name in BOX}
        for layer, (name, _) in UP.items():
            masks[name] += masks[NAMES[layer]] + masks[NAMES[layer + 1]]
        self.cost = [masks[NAMES[layer]].ravel().tolist() for layer in range(highest + 1)]
        self.up = [masks[UP[layer][0]].ravel().tolist() for layer in range(highest)]

    def mask(self, name, net, fixed, routes, prices):
        mask, margin, (before, behind) = numpy.full((self.width + 1, self.height + 1), NEVER, numpy.int64), MARGIN[name], BOX[name]
        mask[margin - before : self.width - margin - behind + 1, margin - before : self.height - margin - behind + 1] = 0
        for rules, own in ((FROM_OTHERS[name], False), (FROM_ALL[name], True)):
            for other, space in rules:
                for owner, *box in fixed.get(other, ()):
                    if own or owner != net:
                        self.add(mask, name, space, box, NEVER)
                for owner, shapes in routes.items():
                    if own or owner != net:
                        for box in shapes.get(other, ()):
                            self.add(mask, name, space, box, NEVER if owner == net else prices[owner])
        return mask

    def add(self, mask, name, space, box, price):
        (x1, y1, x2, y2), (before, behind) = box, BOX[name]
        mask[max(0, x1 - space - behind + 1) : max(0, x2 + space - before), max(0, y1 - space - behind + 1) : max(0, y2 + space - before)] += price

    def number(self, node):
        return (node[0] * (self.width + 1) + node[1]) * (self.height + 1) + node[2]

    def node(self, number):
        rest, y = divmod(number, self.height + 1)
        return (*divmod(rest, self.width + 1), y)


def distances(grid, goals):
    """How far each place is from the goals at least, by the boxes around them."""
    xs, ys = numpy.arange(grid.width + 1)[:, None], numpy.arange(grid.height + 1)[None, :]
    least = numpy.full((grid.width + 1, grid.height + 1), NEVER, numpy.int64)
    for end in goals:
        x1, x2 = min(x for _, x, _ in end), max(x for _, x, _ in end)
        y1, y2 = min(y for _, _, y in end), max(y for _, _, y in end)
        least = numpy.minimum(least, numpy.maximum(0, numpy.maximum(x1 - xs, xs - x2)) + numpy.maximum(0, numpy.maximum(y1 - ys, ys - y2)))
    return least.ravel().tolist()


def shortest(grid, starts, goals):
    """The cheapest way from one of starts to one of the sets of goals, as a list of nodes, or None."""
    ahead = distances(grid, goals)
    starts, goals = {grid.number(node) for node in starts}, {grid.number(node) for goal in goals for node in goal}
    ends, column, plane = starts | goals, grid.height + 1, (grid.width + 1) * (grid.height + 1)
    cost, before = {number: 0 for number in starts}, {}
    heap = sorted((ahead[number % plane], number) for number in starts)
    done = set()
    while heap:
        _, number = heapq.heappop(heap)
        if number in done:
            continue
        done.add(number)
        if number in goals:
            way = [number]
            while way[-1] in before:
                way.append(before[way[-1]])
            return [grid.node(number) for number in reversed(way)]
        layer, place = divmod(number, plane)
        so_far, level, step, around = cost[number], grid.cost[layer], STEP[layer], []
        for other in (place + column, place - column, place + 1, place - 1):
            if 0 <= other < plane:
                price = 0 if layer * plane + other in ends else level[other]
                if price < NEVER:
                    around.append((layer * plane + other, so_far + step + price))
        if layer < len(grid.up) and grid.up[layer][place] < NEVER:
            around.append((number + plane, so_far + UP[layer][1] + grid.up[layer][place]))
        if layer > POLY and grid.up[layer - 1][place] < NEVER:
            around.append((number - plane, so_far + UP[layer - 1][1] + grid.up[layer - 1][place]))
        for other, price in around:
            if price < cost.get(other, NEVER):
                cost[other], before[other] = price, number
                heapq.heappush(heap, (price + ahead[other % plane], other))
    return None


def nodes_of(words):
    """The nodes of a way that is told by its first layer and place, and then by how it goes on: up to an x or y, or on another layer, as in
    `m1 3 38 x21 poly x25`."""
    layers = {"poly": POLY, "m1": METAL1, "m2": METAL2, "m3": METAL3}
    first, x, y, *rest = words.split()
    nodes = [(layers[first], int(x), int(y))]
    for word in rest:
        if word in layers:
            nodes.append((layers[word], *nodes[-1][1:]))
            continue
        axis, end = "xy".index(word[0]) + 1, int(word[1:])
        while nodes[-1][axis] != end:
            node = list(nodes[-1])
            node[axis] += 1 if node[axis] < end else -1
            nodes.append(tuple(node))
    return nodes


def shapes_of(way):
    """The boxes of a way by layer: one for each straight run, and those of the contacts."""
    shapes, start = {}, 0

    def add(name, x1, y1, x2, y2):
        before, behind = BOX[name]
        shapes.setdefault(name, []).append((x1 + before, y1 + before, x2 + behind, y2 + behind))

    for i in range(1, len(way) + 1):
        layer, x, y = way[start]
        if i < len(way) and way[i][0] == layer and (way[i][1] == x or way[i][2] == y):
            continue
        add(NAMES[layer], min(x, way[i - 1][1]), min(y, way[i - 1][2]), max(x, way[i - 1][1]), max(y, way[i - 1][2]))
        if i < len(way) and way[i][0] != layer:
            low, (_, u, v) = min(layer, way[i][0]), way[i]
            add(UP[low][0], u, v, u, v)
            if low == POLY:
                shapes.setdefault("poly", []).append(shapes["cpoly"][-1])  # poly is narrower than its contact
            for name in (NAMES[low], NAMES[low + 1]):
                add(name, u, v, u, v)
            start = i
        else:
            start = i - 1
    return shapes


def too_near(a, b, space):
    return a[0] < b[2] + space and b[0] < a[2] + space and a[1] < b[3] + space and b[1] < a[3] + space


def in_conflict(shapes, others):
    """Whether shapes of two nets break a rule together."""
    for table in (FROM_OTHERS, FROM_ALL):
        for one, two in ((shapes, others), (others, shapes)):
            for name, rules in table.items():
                for other, space in rules:
                    if any(too_near(a, b, space) for a in one.get(name, ()) for b in two.get(other, ())):
                        return True
    return False


def near_itself(shapes):
    """The shapes of a way that its own contacts come too near to, by the contacts' layer."""
    found = {}
    for name in ("cpoly", "via1", "via2"):
        for other, space in FROM_ALL[name]:
            if name == "cpoly" and other != "cpoly":
                continue  # the other contact gives way
            for i, contact in enumerate(shapes.get(name, ())):
                others = shapes.get(other, ())[:i] if other == name else shapes.get(other, ())
                found.setdefault(name, []).extend(box for box in others if too_near(contact, box, space))
    return {name: boxes for name, boxes in found.items() if boxes}


def cleared_way(grid, starts, goals, far, own, fixed, net):
    """The cheapest way whose contacts keep away from each other and from its poly, and which leaves no gap that can't be closed.
    Where a contact is too near to a shape, no contact may stand near that shape (far), or at that place."""
    for attempt in range(TRIES):
        way = shortest(grid, starts, goals)
        if way is None:
            return None
        shapes = shapes_of(way)
        bad = near_itself(shapes)
        for name, boxes in bad.items():
            up = grid.up[{"cpoly": POLY, "via1": METAL1, "via2": METAL2}[name]]
            near = boxes if far else [(x1 + 4, y1 + 4, x1, y1) for x1, y1, *_ in shapes[name]]
            for x1, y1, x2, y2 in near:
                for x in range(max(0, x1 - 4), min(grid.width, x2) + 1):
                    for y in range(max(0, y1 - 4), min(grid.height, y2) + 1):
                        up[x * (grid.height + 1) + y] = NEVER
        together = {name: own.get(name, []) + shapes.get(name, []) for name in BOX}
        barred = [(layer, box) for layer, boxes in bridges(net, together, fixed).items() for box in boxes
                  if is_barred(layer, box, net, fixed, together)]
        if not bad and (not barred or attempt > TRIES // 2):
            return way
        for name, box in barred:
            for layer, x, y in way:
                before, behind = BOX[NAMES[layer]]
                if NAMES[layer] == name and too_near((x + before, y + before, x + behind, y + behind), box, 1):
                    grid.cost[layer][x * (grid.height + 1) + y] += 40
    return None


def bridge(a, b, space, width):
    """The box that joins two boxes of one net which are too near, so that no gap remains: between their sides, or across their
    corners. None where they touch or are far enough."""
    low = [max(a[i], b[i]) for i in (0, 1)]
    high = [min(a[i], b[i]) for i in (2, 3)]
    gaps = [low[i] - high[i] for i in (0, 1)]
    if max(gaps) >= space or max(gaps) <= 0 and gaps != [0, 0]:
        return None
    edges = []
    for i in (0, 1):
        if gaps[i] >= 0:
            # Across this gap, and where the boxes lie corner to corner so far into both that the bridge is wide enough.
            reach = width if min(gaps) >= 0 else 0
            edges.append((max(high[i] - reach, min(a[i], b[i])), min(low[i] + reach, max(a[i + 2], b[i + 2]))))
        else:
            # Along the sides: where they face each other, or so far along both that the bridge is wide enough at each.
            wide = -gaps[i] >= width
            first, last = (low[i], high[i]) if wide else (high[i] - width, low[i] + width)
            edges.append((max(first, min(a[i], b[i])), min(last, max(a[i + 2], b[i + 2]))))
    return edges[0][0], edges[1][0], edges[0][1], edges[1][1]


def covered(box, boxes):
    x1, y1, x2, y2 = box
    return all(any(a <= x < c and b <= y < d for a, b, c, d in boxes) for x in range(x1, x2) for y in range(y1, y2))


WIDTH = {"poly": 2, "metal1": 3, "metal2": 3, "metal3": 6}


def bridges(net, shapes, fixed):
    """Boxes that close the gaps between shapes of one net that are too near: the rules of spacing hold for them too."""
    found = {}
    for layer, space in (("poly", 3), ("metal1", 3), ("metal2", 4), ("metal3", 4)):
        boxes = [tuple(box) for owner, *box in fixed.get(layer, ()) if owner == net] + shapes.get(layer, [])
        pads = shapes.get("cpoly", []) if layer == "poly" else []
        for i, a in enumerate(boxes):
            for b in boxes[:i]:
                box = bridge(a, b, 3 if a in pads or b in pads else space, WIDTH[layer])
                if box is None or covered(box, boxes):
                    continue
                found.setdefault(layer, []).append(box)
    return found


def is_barred(layer, box, net, fixed, own):
    """Whether a shape of a net would be too near to what doesn't give way, or to a contact of its own."""
    if any(too_near(box, shape, space) for other, space in FROM_ALL[layer] for shape in own.get(other, ())):
        return True
    rules = [(other, space, False) for other, space in FROM_OTHERS[layer]] + [(other, space, True) for other, space in FROM_ALL[layer]]
    return any((own or owner != net) and too_near(box, shape, space) for other, space, own in rules for owner, *shape in fixed.get(other, ()))


def route_net(size, net, ends, fixed, routes, prices, history, highest):
    """Routes one net into routes; False where even other nets' wires can't make way."""
    joined, rest = set(ends[0]), [set(end) for end in ends[1:]]
    routes[net] = {}
    while rest:
        for far in (True, False):
            way = cleared_way(Grid(size, net, fixed, routes, prices, history, highest), joined, rest, far, routes[net], fixed, net)
            if way:
                break
        if way is None:
            return False
        for name, boxes in shapes_of(way).items():
            routes[net].setdefault(name, []).extend(boxes)
        for name, boxes in bridges(net, routes[net], fixed).items():
            new = [box for box in boxes if box not in routes[net].get(name, ()) and not is_barred(name, box, net, fixed, routes[net])]
            routes[net].setdefault(name, []).extend(new)
        joined |= set(way)
        for end in [end for end in rest if way[-1] in end]:
            joined |= end
            rest.remove(end)
    return True


def remember(history, shapes, others):
    """Makes the places dearer at which shapes of two nets met."""
    for name, rules in FROM_OTHERS.items():
        for other, space in rules:
            for a in shapes.get(name, ()):
                for b in others.get(other, ()):
                    if too_near(a, b, space):
                        x1, y1, x2, y2 = max(a[0], b[0]) - space, max(a[1], b[1]) - space, min(a[2], b[2]) + space, min(a[3], b[3]) + space
                        history[name][max(0, x1 - 4) : max(0, x2), max(0, y1 - 4) : max(0, y2)] += 2


def route(size, nets, fixed, highest, limit=300):
    """Routes all nets (name: list of sets of nodes); gives the shapes of each by layer, or None."""
    routes, prices = {}, {net: 20 for net in nets}
    history = {name: numpy.zeros((size[0] + 1, size[1] + 1), numpy.int64) for name in FROM_OTHERS}
    waiting = sorted((net for net in nets if len(nets[net]) > 1), key=lambda net: (net not in ("vdd", "gnd"), len(nets[net])))
    for _ in range(limit):
        if not waiting:
            return routes
        net = waiting.pop(0)
        if not route_net(size, net, nets[net], fixed, routes, prices, history, highest):
            return None
        for other in [other for other in routes if other != net and in_conflict(routes[net], routes[other])]:
            remember(history, routes[net], routes[other])
            del routes[other]
            prices[other] += 5
            waiting.append(other)
    return None
