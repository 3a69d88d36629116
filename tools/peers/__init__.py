"""Those at the other end: a BGP speaker over a socket, and members of an exchange that are made of it."""
