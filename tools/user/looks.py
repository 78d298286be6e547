"""How a block is drawn on the page: what it is to somebody who reads a map, and its colour. Drawing alone goes by this;
what a block is to mobs, light and torches is the table's."""

SOLID, ROOM, LIGHT, WATER, LAVA, THING = "solid", "room", "light", "water", "lava", "thing"
SIGNS = {".": ROOM, "*": LIGHT}  # of a plan's layers; `#` is all else

# Whole names, and words of names, of blocks that shine and of blocks that don't fill their cell.
AIR = {"air", "cave_air", "void_air"}
SHINING = {"torch", "lantern", "glowstone", "shroomlight", "froglight", "beacon", "conduit", "lichen", "pickle"}
SHINING_NAMES = {"end_rod"}
SLIGHT = set("""anvil azalea banner bars bed bell bud bush button cake candle carpet cauldron chain chest cluster cobweb
comparator door dripleaf fence fern fungus gate glass head hopper ladder lever mushroom pane plate pointed pot potted
rail repeater rod roots sapling scaffolding sign skull slab sprouts stairs trapdoor tripwire vine vines wall
wire""".split())
SLIGHT_NAMES = {"grass", "short_grass", "tall_grass", "snow"}
FULL = {"block", "stem"}

# Colours, and parts of the names of blocks that have them; the first that fits counts.
COLOURS = [
    ("#e0a73a", "torch lantern glowstone shroomlight froglight end_rod beacon conduit sea_pickle glow_"),
    ("#3d63c4", "water bubble kelp seagrass"),
    ("#e8691b", "lava magma fire"),
    ("#3fc7c9", "diamond"),
    ("#d9b83c", "gold honey hay sponge"),
    ("#b08368", "iron"),
    ("#a83a30", "redstone tnt"),
    ("#3457ad", "lapis"),
    ("#2f9e57", "emerald"),
    ("#b3683f", "copper"),
    ("#3b3b3d", "coal bedrock"),
    ("#2a2438", "obsidian"),
    ("#7d5bb8", "amethyst purpur shulker"),
    ("#12414a", "sculk"),
    ("#42424c", "deepslate"),
    ("#64665d", "tuff"),
    ("#35323a", "blackstone basalt"),
    ("#6d2f30", "nether crimson"),
    ("#23756f", "warped"),
    ("#4f3d31", "soul"),
    ("#d6d69a", "end_stone"),
    ("#cdcbc6", "diorite calcite quartz bone"),
    ("#91644f", "granite"),
    ("#7d6253", "dripstone packed_mud"),
    ("#eef3f6", "snow"),
    ("#97bdea", "ice"),
    ("#5f8f8a", "prismarine"),
    ("#59842f", "moss grass fern leaves vine azalea lichen cactus"),
    ("#a25a34", "red_sand terracotta"),
    ("#cfc393", "sand"),
    ("#8e96a3", "clay"),
    ("#74543b", "dirt mud podzol mycelium farmland path roots"),
    ("#b9a24a", "bamboo"),
    ("#d9a4ac", "cherry pink"),
    ("#3f2d1c", "dark_oak spruce"),
    ("#5a2f2a", "mangrove"),
    ("#94703f", "oak birch jungle acacia planks _log _wood chest barrel crafting ladder fence door sign scaffolding"),
    ("#e4e6e8", "white"),
    ("#c9752b", "orange"),
    ("#a84b9f", "magenta"),
    ("#5f93c9", "light_blue cyan"),
    ("#cfb53a", "yellow"),
    ("#6fa32f", "lime green"),
    ("#7d3fa3", "purple"),
    ("#39479b", "blue"),
    ("#6b4a30", "brown"),
    ("#9a2f2a", "red_"),
    ("#24252a", "black"),
    ("#b7d3d8", "glass pane"),
]
GREY = "#7c7d80"


def plain(name):
    """A block's name without its prefix."""
    return name.split(":", 1)[-1]


def kind_of(name, props):
    """What a block is on the map, by its name."""
    name = plain(name)
    if name in AIR:
        return ROOM
    if name in (WATER, LAVA):
        return name
    words = set(name.split("_"))
    if props.get("lit") == "true" or words & SHINING or name in SHINING_NAMES:
        return LIGHT
    return THING if name in SLIGHT_NAMES or (words & SLIGHT and not words & FULL) else SOLID


def colour_of(name):
    """The colour of a block, by its name."""
    name = plain(name)
    return next((colour for colour, parts in COLOURS if any(part in name for part in parts.split())), GREY)


def kinds(box, plan):
    """What each block state of the box is: by the layers that the plan draws, and else by its name."""
    found = [kind_of(*state) for state in box.palette]
    told = {}
    for y, rows in plan.layers.items():
        for z, row in enumerate(rows):
            for x, sign in enumerate(row):
                number = box.number(x, y, z)
                if sign in ".*#" and number not in box.made:
                    told[box.cells[number]] = sign
    for index, sign in told.items():
        if index != box.NO_ENTRY and found[index] != LAVA:
            is_shown = found[index] in (ROOM, LIGHT)
            found[index] = SIGNS.get(sign, THING if is_shown else found[index])
    return found
