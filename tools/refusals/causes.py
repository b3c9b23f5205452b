"""What the program's lines and causes mean, in a sentence each. These are those of docs/formats.md and no others, which tools/check_tools checks.

A line stands here as there: of its words, those in capitals stand for what the program puts there.
"""
LINES = {
    "usage": "The words have none of these forms: lasp plain GRAPH SCRIPT, lasp run GRAPH SCRIPT WORKERS with 1 to 16 workers, lasp check GRAPH, lasp export GRAPH SCRIPT NODE with NODE a digit from 0 to 7, "
    "lasp merge GRAPH FILE .. with one to eight files, lasp delta GRAPH SCRIPT, lasp dots SCRIPT, lasp trace GRAPH SCRIPT WORKERS, lasp load SEED COUNT WORKERS with a seed up to 2147483647 and 1 to 20000 updates, site GRAPH NODE STATE SCRIPT FILE .. with NODE a digit and at most eight files.",
    "graph NUMBER CAUSE": "The graph is refused.",
    "script NUMBER CAUSE": "The script is refused.",
    "read fault FILE": "The file couldn't be read: it isn't there, is a folder, or isn't for you to read.",
    "too long FILE 16777216": "The file has more than 16,777,216 bytes, and the program reads none that is longer.",
    "write fault": "Standard output took only a first part of the answer, or nothing: its disk is full, or nobody reads it any more.",
    "too large COMMAND NODE NAME": "The variable would have more than 65,536 rows or elements there.",
    "network full COMMAND": "The messages that this command sends bring the bytes of all messages of the run past 268,435,456: send less often, or fewer values.",
    "out of memory": "There was no memory left for the program; the files themselves may be in order.",
    "not reached COMMAND": "The variable doesn't meet the threshold when the run comes to this await, so the run ends there and writes no report.",
    "state FILE PLACE CAUSE": "The file is no message that can be merged.",
    "too large file FILE NODE NAME": "With the state in this file the variable would have more than 65,536 rows or elements.",
    "updates full COMMAND NODE": "The site has made 100,000 updates, and a replica makes no more in all its life: go on under a number that no site had yet.",
}

NOT_JSON = "The bytes are no JSON text: a comma, a quote or a bracket is missing or too many, something follows the text, or a byte isn't UTF-8."
DECLARATION = {
    "TooMany": "A graph has at most 64 variables, and 64 are declared before.",
    "Shape": "The declaration has none of the forms: its kind is an unknown word, a part is missing, too many or no string, "
    "or the number of a modulo isn't from 1 to 4,294,967,295.",
    "NameShape": "A name has 1 to 32 characters: first a letter a to z, then letters a to z, digits and _.",
    "NameTaken": "An earlier declaration has this name.",
    "UnknownInput": "An input isn't the name of an earlier declaration: inputs are declared before what reads them.",
    "WrongKind": "An input is a gset, a counter, a maxreg or a fold, and processes read only orsets and the sets that are derived from them.",
    "UnknownFunction": "No function of this sort has this name: a map takes a map function, a filter a predicate, a fold a lift.",
    "TooWide": "More than 16 source values would stand in one value of this variable.",
}
COMMAND = {
    "Shape": "The command has none of the forms: its word is unknown, it has too few or too many parts, or one of them is of the wrong sort; "
    "a second nodes is refused so too.",
    **{it: DECLARATION[it] for it in ("NameShape", "NameTaken", "UnknownInput", "WrongKind", "UnknownFunction", "TooWide")},
    "NoSuchNode": "The node isn't one of the script's, which are numbered from 0 to one below the number in its first command.",
    "UnknownVar": "No variable has this name, neither in the graph nor by a declare before this command.",
    "UnknownMark": "No command before this one makes a mark of this name.",
    "MarkTaken": "A command before this one made a mark of this name, and a mark is made once.",
    "WrongOp": "The command doesn't suit the variable: add and remove are for an orset, insert for a gset, inc for a counter, max for a maxreg, "
    "mark and bind for sources, bind for a mark of the same variable; or the threshold is none for a variable of this kind.",
    "ValueRefused": "The value isn't a whole number of 64 bits, a text or a pair of values, or has more than 8 parts or 256 bytes of text; "
    "or the number of an inc or max is out of its range.",
    "NotSent": "No command before this one sends a message with this number; they are counted from 0, and a sync sends one for each node.",
    "NotLive": "Of all commands live knows add, remove, insert, inc, max, send, print and await alone, the last with count, added or removed, and no command 65536: each is of one node, which does its own beside the others.",
    "NotDots": "Of all commands dots knows add, remove, send, deliver, sync, settle and print alone: its replicas keep no tombstones, and have no marks to bind, no reads and one variable.",
    "NotLocal": "A site makes updates of its own number alone: add, remove, insert, inc and max, each with NODE. What other sites do comes in their states.",
    "TooMany": "There are too many: of commands 100,000, of reads and of marks 1,000 each, of variables 64.",
}
CAUSES = {
    "graph": {"NotJson": NOT_JSON, "Shape": "The file is JSON, but no array of declarations."},
    "declaration": DECLARATION,
    "script": {"NotJson": NOT_JSON, "Shape": 'The file is JSON, but no array that begins with ["nodes",N], N a whole number from 1 to 8.'},
    "command": COMMAND,
    "state": {
        "Short": "The bytes end within what has to stand there, as if the file had been cut.",
        "Magic": "The file doesn't begin as a message does, with LASP and the version 1 or 2, so it is none, or one of another version.",
        "Kind": "A byte that tells a kind of source, a kind of value, or whether something is dead or there, is none that a message may have.",
        "Range": "A number is out of its range, or a value has too many parts or too much text.",
        "Text": "The bytes of a name aren't a name, or those of a text aren't UTF-8.",
        "Order": "A row, an element, a value or a token isn't above the one before it.",
        "Rest": "More bytes follow where the message ends.",
        "WrongGraph": "The message was read, but its sources aren't the first of this graph, by name, kind and order, "
        "or it is of another number of nodes than the first file, or for a site than the script.",
    },
}
