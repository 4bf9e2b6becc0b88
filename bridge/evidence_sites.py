"""Evidence of cells of sites, by its definition, with exact numbers (docs/evidence.md). It uses nothing of the program."""

from evidence_rows import dot, is_canonical, primitive, unit


def lifted(site, height):
    """The row of a site with its height in a last entry."""
    return primitive([height.denominator * x for x in site] + [site[0] * height.numerator])


def raised(site):
    """The row of a site raised to the paraboloid, by the square of its distance from the origin."""
    return primitive([site[0] * x for x in site] + [dot(site[1:], site[1:])])


def lifted_lists(values):
    """The row lists of lifted and of raised sites, each with the row upwards at its end."""
    sites, heights = values.rows("SITES"), values.fractions("SITE_HEIGHTS")
    if sites:
        upwards = unit(len(sites[0]) + 1, len(sites[0]))
        if heights is not None:
            yield [lifted(site, height) for site, height in zip(sites, heights)] + [upwards]
        yield [raised(site) for site in sites] + [upwards]


def pairs(values):
    """The pairs of rows whose products are made on the way to lifted and to raised sites."""
    sites, heights = values.rows("SITES") or [], values.fractions("SITE_HEIGHTS") or ()
    for site, height in zip(sites, heights):
        for x in site:
            yield (x,), (height.denominator,)
        yield (site[0],), (height.numerator,)
    for site in sites:
        for x in site:
            yield (site[0],), (x,)
        yield site[1:], site[1:]


def holds_product(values, first, second):
    """The rows of a product on the way to the lifted rows, or a facet row of their cone and one of them."""
    if (first, second) in pairs(values):
        return True
    return any(second in rows[:-1] and is_canonical(rows, first, len(first)) for rows in lifted_lists(values) if len(rows[-1]) == len(first))
