"""What each client of a route server is to hold, written from docs/DEFINITIONS.md and the standards that it names alone.

Nothing is asked of the product: octets are cut and read here anew (`octets`, `paths`, `attributes`, `updates`, `opens`), and what
they come to is a session and a table (`hearing`). Of the tables of all clients come the candidates for one (`candidates`, by
`rules` and `communities`), of these the best (`choice`), and of that what is passed on (`passing`). `asking` holds against it
what clients were told.

Attributes are a dictionary from types to flags and octets, in which AS numbers have four octets; a prefix is its bits and its
length; a table is a dictionary from prefixes to attributes. Configurations are as tomllib reads them.
"""

# The sentences of the definitions that a wrong reading leaves out, by the names under which it does.
SENTENCES = {
    "last-mention": "the last mention of a prefix counts",
    "established": "the table of a client that isn't Established is empty",
    "of-another": "a candidate is a route of another client",
    "servers-as": "a candidate is without the server's AS in its AS_PATH",
    "import": "the sender's import rules pass it",
    "export": "the client's export rules pass it",
    "receiver": "in the client's export rules `peer` is its AS number",
    "stripped": "it is passed on without the communities that the rules take away",
    "fits": "the UPDATE that announces it is no longer than a message to the client may be",
    "preference": "the highest preference is best",
    "path": "then the shortest AS_PATH",
    "origin": "then the lowest ORIGIN",
    "med": "then that than which none of the same neighbouring AS has a lower MULTI_EXIT_DISC",
    "identifier": "then the lowest BGP Identifier",
    "address": "then the lowest address",
    "place": "then the lowest place",
}
