"""An afternoon of a block explorer, by names alone: a block's extrinsics and events, an account by
its key, ten thousand accounts, and a call that is encoded.

    python3 clients/python/explorer.py
"""

from __future__ import annotations

import hashlib
import json
import pathlib
from typing import Any, Callable, Dict, Iterator, List, Tuple

from scaleview import EncodeError, Field, Metadata, Refused, Type, Variant, to_json_for_browsers

EXAMPLES = pathlib.Path(__file__).resolve().parents[2] / "examples"
CHAIN, RUNTIME = EXAMPLES / "chain", EXAMPLES / "runtime"
DIGITS = "123456789ABCDEFGHJKLMNPQRSTUVWXYZabcdefghijkmnopqrstuvwxyz"
ACCOUNTS = 10_000


def base58(data: bytes) -> str:
    number, text = int.from_bytes(data, "big"), ""
    while number:
        number, digit = divmod(number, 58)
        text = DIGITS[digit] + text
    return "1" * (len(data) - len(data.lstrip(b"\0"))) + text


def ss58(account: bytes, prefix: int = 42) -> str:
    """The address of an account, on a network whose prefix is below 64."""
    data = bytes([prefix]) + account
    return base58(data + hashlib.blake2b(b"SS58PRE" + data).digest()[:2])


# What writes the values of the types with these paths.
HOOKS: Dict[str, Callable[[Any], Any]] = {
    "sp_core::crypto::AccountId32": lambda value: ss58(value[0]),
}


def shown(found: Type, value: Any) -> Any:
    """The value in the form for browsers, but for types that have a hook."""
    hook = HOOKS.get(found.path)
    if hook:
        return hook(value)
    if isinstance(value, Variant):
        arm = next(arm for arm in found.variants if arm.index == value.index)
        return {value.name: shown_fields(found, arm.fields, value.fields)}
    if isinstance(value, list):
        assert found.element is not None
        element = found.registry.types[found.element]
        return [shown(element, part) for part in value]
    if isinstance(value, (dict, tuple)):
        parts = shown_fields(found, found.fields, value)
        return parts[0] if isinstance(value, tuple) and len(value) == 1 else parts
    return to_json_for_browsers(value)


def shown_fields(found: Type, fields: List[Field], value: Any) -> Any:
    types = [found.registry.types[field.type] for field in fields]
    if isinstance(value, dict):
        return {name: shown(its, value[name]) for its, name in zip(types, value)}
    return [shown(its, part) for its, part in zip(types, value)]


def print_value(found: Type, value: Any) -> None:
    print(f"  {json.dumps(shown(found, value))}")


def amounts(value: Any) -> Iterator[Tuple[str, int]]:
    """The amounts in an event: the name of the arm that has a field `amount`, and its value."""
    if isinstance(value, Variant):
        if isinstance(value.fields, dict) and isinstance(value.fields.get("amount"), int):
            yield value.name, value.fields["amount"]
        value = value.fields
    if isinstance(value, dict):
        value = list(value.values())
    if isinstance(value, (list, tuple)):
        for part in value:
            yield from amounts(part)


def show_extrinsics(metadata: Metadata, extrinsics: List[Any]) -> None:
    found = metadata.type_of("extrinsic")
    print(f"{len(extrinsics)} extrinsics in a block")
    for data in extrinsics:
        extrinsic = metadata.extrinsic(data)
        (call,) = extrinsic.fields["call"].fields
        print(f"  {extrinsic.name} {extrinsic.fields['call'].name}.{call.name}")
        if extrinsic.name == "signed":
            print_value(found, extrinsic)


def show_events(metadata: Metadata, block: Any) -> None:
    records = metadata.storage["System.Events"]
    events = metadata.events(block)
    print(f"{len(events)} events")
    for event in events:
        (inner,) = event["event"].fields
        print(f"  {event['phase'].name} {event['event'].name}.{inner.name}")
    print_value(records, events[1:2])


def show_amounts(metadata: Metadata, block: bytes) -> None:
    events = metadata.events(block)
    print(f"{len(events)} events in {len(block)} bytes; amounts:")
    total = 0
    for position, event in enumerate(events):
        for arm, amount in amounts(event["event"]):
            print(f"  {position:2} {event['event'].name}.{arm}: {amount}")
            total += amount
    print(f"  in all {total}")


def show_account(metadata: Metadata, key: bytes, stored: bytes) -> None:
    entry = metadata.storage["System.Account"]
    (account,) = entry.decode_key(key)["key0"]
    print(f"the account {ss58(account)}, on Polkadot {ss58(account, 0)}")
    print_value(entry, entry.decode(stored))
    least = metadata.constants["Balances.ExistentialDeposit"]
    print(f"  holds more than {least}: {entry.decode(stored)['data']['free'] > least}")
    print(f"  a new one has {entry.default()['data']['free']}")


def sum_balances(metadata: Metadata, stored: bytes) -> None:
    entry = metadata.storage["System.Account"]
    value = entry.decode(stored)
    rows = []
    for number in range(ACCOUNTS):
        data = {**value["data"], "free": 10**18 + number}
        rows.append(entry.encode({**value, "nonce": number, "data": data}))
    decoded = metadata.decode_many(entry, rows)
    free = sum(found["data"]["free"] for found in decoded)
    nonces = sum(found["nonce"] for found in decoded)
    print(f"{len(decoded)} accounts of {len(rows[0])} bytes have {free} free, and {nonces} nonces")
    assert free == ACCOUNTS * 10**18 + sum(range(ACCOUNTS))


def encode_call(metadata: Metadata) -> None:
    fields = {"dest": ("Id", [(b"\x07" * 32,)]), "value": 10**12}
    data = metadata.encode_call("Balances.transfer_allow_death", fields)
    print(f"a call: 0x{data.hex()}")
    print_value(metadata.type_of("call"), metadata.call(data))
    for wrong in ({**fields, "value": 2**128}, {**fields, "dest": ("Id", [bytes(32)])}):
        try:
            metadata.encode_call("Balances.transfer_allow_death", wrong)
        except (TypeError, ValueError, OverflowError) as error:
            print(f"  {type(error).__name__}: {error}")
    try:
        metadata.encode_call("Balances.transfer_allow_death", fields, depth=3)
    except EncodeError as error:
        print(f"  {error.reason} at {error.path}")
    try:
        metadata.call(data[:-1])
    except Refused as refused:
        print(f"  {refused.reason} at byte {refused.place}")
    try:
        metadata.storage["System.Accounts"]
    except KeyError as error:
        print(f"  {error}")


def main() -> None:
    # As a node answers it: text of hexadecimal digits.
    answer = "0x" + (CHAIN / "chain.metadata").read_bytes().hex()
    metadata = Metadata(answer, bits=True)
    counts = f"{len(metadata.storage)} storage entries, {len(metadata.constants)} constants"
    print(f"{metadata!r}: {counts}")
    extrinsics = [(CHAIN / "extrinsic.hex").read_text(), (CHAIN / "transfer.scale").read_bytes()]
    show_extrinsics(metadata, extrinsics)
    show_events(metadata, (CHAIN / "events.hex").read_text())
    show_amounts(metadata, (RUNTIME / "events_block.scale").read_bytes())
    stored = (RUNTIME / "account_info.scale").read_bytes()
    show_account(metadata, (CHAIN / "key.scale").read_bytes(), stored)
    sum_balances(metadata, stored)
    encode_call(metadata)


if __name__ == "__main__":
    main()
