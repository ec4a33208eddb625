#!/usr/bin/python3
"""pool.py URL..: a pool of replicas with ldap3: reads at any of them, updates at the primary by a referral, and a read of one's own update wherever it is."""
import sys
import time

import ldap3

READ = "2.25.20120101"
PEOPLE = "ou=People,dc=example,dc=com"
URLS = sys.argv[1:] or ["ldap://127.0.0.1:14601", "ldap://127.0.0.1:14602", "ldap://127.0.0.1:14603"]


def answered_number(connection: ldap3.Connection) -> bytes:
    """The number of the update that was made, or of the state that was read."""
    return (connection.result.get("controls") or {}).get(READ, {}).get("value") or b"0"


def read_back(connection: ldap3.Connection, name: str, number: bytes) -> None:
    """A read that names an update: a replica that hasn't made it yet answers busy (51), and none answers without it."""
    while True:
        connection.search(name, "(objectClass=*)", ldap3.BASE, attributes=["cn"], controls=[(READ, True, number)])
        if connection.result["description"] != "busy":
            break
        time.sleep(0.05)
    print("read back", connection.result["description"], [entry.entry_dn for entry in connection.entries])


def main() -> None:
    servers = [ldap3.Server(url, get_info=ldap3.NONE, connect_timeout=2) for url in URLS]
    pool = ldap3.ServerPool(servers, ldap3.ROUND_ROBIN, active=1, exhaust=5)
    connection = ldap3.Connection(pool, "cn=admin,dc=example,dc=com", "secret", auto_bind=True, receive_timeout=5)
    for number in range(3):
        name = f"uid=pool{number},{PEOPLE}"
        connection.add(name, ["inetOrgPerson"], {"cn": f"Pool {number}", "sn": "Pool"}, controls=[(READ, True, b"0")])
        print("add", connection.result["description"])
        read_back(connection, name, answered_number(connection))
    for number in range(3):
        connection.delete(f"uid=pool{number},{PEOPLE}")
        print("delete", connection.result["description"])
    connection.unbind()


if __name__ == "__main__":
    main()
