"""The table of flow rules: for each command that has one, what must hold, in words."""

from .commands import ASSIGN, INSERTIONS, MOVES, PRINT, REMOVALS, SET

CURSOR = "The cursor level counts only where the expression reads `value` or `children`."

RULES = {
    ASSIGN: f"A variable takes a number only if its level has every party of the expression and the context. {CURSOR}",
    PRINT: f"A board line must be public, or for every party of the expression and the context (`print .. for ..`). {CURSOR}",
    SET: "A node takes a value only if its content level has every party of what went into it: the expression, the context and "
         "the cursor level.",
    **dict.fromkeys(MOVES, "The cursor moves only if the context is not above the cursor level: where the cursor stands must not "
                           "tell the public how a house guard came out."),
    **dict.fromkeys(INSERTIONS, "A new node is as secret as the context and the cursor level. That must not be above the list level "
                                "of its parent, nor above the existence of the node that comes to stand right of it."),
    **dict.fromkeys(REMOVALS, "A node is removed only if the context and the cursor level are not above its existence."),
}
