"""LMS keys and signers for securesystemslib, and so for python-tuf.

`register` adds both to the tables of securesystemslib (0.26 or later). From then on the objects of
python-tuf have keys of type ``lms`` and scheme ``lms-sha256``, with signatures that
``tufcheck_lms_verify`` checks, and a command signs::

    tufcheck.securesystemslib.register()
    uri, key = LMSCommandSigner.import_(["/usr/bin/sign-lms", "--slot", "1"], public_bytes)
    root.add_key(key, "root")
    signer = Signer.from_priv_key_uri(uri, key)

python-tuf counts key ids towards a threshold, and ``tufcheck`` distinct public values: don't list
one public value under two ids.
"""

from __future__ import annotations

import binascii
import hashlib
import shlex
import subprocess
from typing import Any, Dict, Optional, Sequence, Tuple

try:
    from securesystemslib.exceptions import UnverifiedSignatureError, VerificationError
    from securesystemslib.formats import encode_canonical
    from securesystemslib.signer import (
        KEY_FOR_TYPE_AND_SCHEME, SIGNER_FOR_URI_SCHEME, Key, SecretsHandler, Signature, Signer)
except ImportError as error:
    raise ImportError(f"securesystemslib 0.26 or later is needed: {error}") from error

from . import LibraryError, TufcheckError, lms_verify, version

__all__ = ["CommandError", "LMSCommandSigner", "LMSKey", "LibraryError", "register"]


class CommandError(TufcheckError):
    """The command can't be run, failed, or wrote no valid signature. It may have used a leaf."""


class LMSKey(Key):
    """An LMS key of the six kinds that ``tufcheck`` supports, in `keyval` as ``{"public": HEX}``.

    A key of another kind, or under another id than its own, stays in its file, but no signature of
    it is valid."""

    KEYTYPE = "lms"
    SCHEME = "lms-sha256"

    @classmethod
    def from_public(cls, public: bytes) -> LMSKey:
        """The key of a public key of RFC 8554, with its id. Raises `ValueError` if that isn't of a
        supported kind."""
        if not _is_supported(public):
            raise ValueError("no LMS key with SHA-256, W4 or W8 and height 5, 10 or 15")
        key = cls("", cls.KEYTYPE, cls.SCHEME, {"public": public.hex()})
        key.keyid = key.own_id()
        return key

    @classmethod
    def from_dict(cls, keyid: str, key_dict: Dict[str, Any]) -> LMSKey:
        """The key of a key object, whose members it removes, as python-tuf calls it. Raises
        `KeyError` or `TypeError`."""
        keytype, scheme, keyval = (key_dict.pop(name) for name in ("keytype", "scheme", "keyval"))
        return cls(keyid, keytype, scheme, keyval, key_dict)

    def to_dict(self) -> Dict[str, Any]:
        """The key object."""
        return {"keytype": self.keytype, "scheme": self.scheme, "keyval": self.keyval,
                **self.unrecognized_fields}

    def own_id(self) -> str:
        """The SHA-256 of the canonical text of the key object, in hexadecimal digits."""
        return hashlib.sha256(encode_canonical(self.to_dict()).encode()).hexdigest()

    def public_bytes(self) -> bytes:
        """The public key of RFC 8554. Raises `ValueError` if it isn't of a supported kind, or if
        the id isn't the key's own."""
        digits = self.keyval.get("public")
        public = binascii.unhexlify(digits) if isinstance(digits, str) else b""
        if (self.keytype, self.scheme) != (self.KEYTYPE, self.SCHEME) or not _is_supported(public):
            raise ValueError("no LMS key with SHA-256, W4 or W8 and height 5, 10 or 15")
        if self.keyid != self.own_id():
            raise ValueError("the id isn't the key's own")
        return public

    def verify_signature(self, signature: Signature, data: bytes) -> None:
        """Raises `UnverifiedSignatureError` if the signature isn't valid, `VerificationError` if
        the key or the signature is malformed, and `LibraryError`, which python-tuf doesn't take for
        an invalid signature, if there is no library."""
        try:
            public, raw = self.public_bytes(), binascii.unhexlify(signature.signature)
        except Exception as error:  # securesystemslib's own too, of a text that isn't canonical
            raise VerificationError(f"key or signature is malformed: {error}") from error
        if not lms_verify(public, data, raw):
            raise UnverifiedSignatureError(f"the signature of {self.keyid} isn't valid")


class LMSCommandSigner(Signer):
    """Signs by a command that reads the bytes to be signed on standard input, and writes the
    signature of RFC 8554 to standard output, raw or in hexadecimal digits.

    Its URI is ``lms-command:`` and the words of the command, quoted as for a shell; none is
    started. The command has to store the number of its next leaf before it writes. What it writes
    to standard error goes to that of the caller."""

    URI_SCHEME = "lms-command"

    def __init__(self, command: Sequence[str], public_key: LMSKey) -> None:
        """Raises `ValueError` if there is no command, or the key isn't usable."""
        if not command or not isinstance(public_key, LMSKey):
            raise ValueError("a command and an LMSKey are needed")
        self._command = list(command)
        self._public_key = public_key
        self._public = public_key.public_bytes()

    @classmethod
    def import_(cls, command: Sequence[str], public: bytes) -> Tuple[str, LMSKey]:
        """The URI of the command and the key of a public key of RFC 8554. Raises `ValueError`."""
        return f"{cls.URI_SCHEME}:{shlex.join(command)}", LMSKey.from_public(public)

    @classmethod
    def from_priv_key_uri(cls, priv_key_uri: str, public_key: Key,
                          secrets_handler: Optional[SecretsHandler] = None) -> LMSCommandSigner:
        """The signer of a URI. Its command asks for secrets itself. Raises `ValueError`."""
        scheme, _, command = priv_key_uri.partition(":")
        if scheme != cls.URI_SCHEME:
            raise ValueError(f"{priv_key_uri} doesn't begin with {cls.URI_SCHEME}:")
        return cls(shlex.split(command), public_key)

    @property
    def public_key(self) -> LMSKey:
        return self._public_key

    def sign(self, payload: bytes) -> Signature:
        """Runs the command, and checks the signature by the public key. Raises `CommandError` or
        `LibraryError`; the latter before it runs the command."""
        version()
        try:
            written = subprocess.run(self._command, input=payload, stdout=subprocess.PIPE,
                                     check=True).stdout
        except (OSError, ValueError, subprocess.CalledProcessError) as error:
            raise CommandError(f"{self._command[0]} can't sign: {error}") from error
        signature = _raw(written)
        if not lms_verify(self._public, payload, signature):
            raise CommandError(f"{self._command[0]} wrote no valid signature of its key")
        return Signature(self._public_key.keyid, signature.hex())


def register() -> None:
    """Adds key type and signer to the tables of securesystemslib. Raises `LibraryError` if the
    library can't be loaded, or is another one."""
    version()
    KEY_FOR_TYPE_AND_SCHEME[LMSKey.KEYTYPE, LMSKey.SCHEME] = LMSKey
    SIGNER_FOR_URI_SCHEME[LMSCommandSigner.URI_SCHEME] = LMSCommandSigner


def _is_supported(public: bytes) -> bool:
    codes = int.from_bytes(public[:4], "big"), int.from_bytes(public[4:8], "big")
    return len(public) == 56 and codes[0] in (5, 6, 7) and codes[1] in (3, 4)


def _raw(written: bytes) -> bytes:
    # A raw signature begins with a zero, since leaves have small numbers, so it isn't text.
    try:
        return binascii.unhexlify(b"".join(written.split()))
    except binascii.Error:
        return written
