"""Whose an account of the college is, for signin_account.py: names that look like another person's, lists of accounts, people who
leave, and tokens that the provider did not sign, or not for this sign-in."""

import time

from cryptography.hazmat.primitives.asymmetric import rsa

from office_requests import Page
from provider import CLIENT_SECRET, as_it_is
from signin_stand import Browser
from stand import check, key_of

# An account of each rule, and what may be taken for it: T1, S1 and I1 in other letters. Python makes S of ſ, and I of ı.
OTHER_NAMES = ["T1", "t1 ", " t1", "\u200bt1", "t1\u0301", "ｔ1", "t１", "ſ1", "ı1", "İ1", "t1\n", "t1\r\nRoom-Key: " + key_of("T2"),
               "t1@other.example", "%741", "dDE=", "t1,t2", "", "x" * 3000]
LISTED = "zoë.b@college.example"
# The same in capitals, with the dots of ë as a sign of their own, and with a Cyrillic e.
UNLISTED = ["Zoë.b@college.example", "zoe\u0308.b@college.example", "zoë.b@collegе.example", "zoë.b@college.example ",
            "zoë.b@other.example"]


def signed_in_as(stand, account):
    """For whom a browser acts that is signed in with an account."""
    browser = Browser(stand)
    browser.sign_in(account)
    return browser.whose()


def try_names(stand, others):
    """Accounts that look like another person's."""
    for account in others:
        browser = Browser(stand)
        browser.sign_in(preferred_username=account)
        told = browser.whose()
        check(f"the account {account[:30]!r} is nobody's", told in ((403, "NoPerson"), (401, None), (431, None)), told)
    for value in (1, True, None, ["t1"], {"t1": "t1"}, "t1\0", "t1\0x"):
        browser = Browser(stand)
        browser.sign_in(preferred_username=value)
        check(f"what is no name, {value!r}, signs nobody in", browser.whose() == (401, None), browser.whose())
    browser = Browser(stand)
    browser.sign_in(preferred_username="\ud800t1")
    check("nor what is no text", browser.whose() in ((401, None), (403, "NoPerson")), browser.whose())
    browser.sign_in(email="t1", name="t1", nickname="t1", preferred_username="x")
    check("other claims name nobody", browser.whose() == (403, "NoPerson"), browser.whose())
    stand.ask(ask="set-accounts", rule="same")
    told = [signed_in_as(stand, account) for account in ("T1", "t1", "T9", "Ｔ1")]
    check("by the rule `same` an account is written as the identifier", told == ["T1", *[(403, "NoPerson")] * 3], told)


def try_list(stand):
    """A list of accounts, by the clerk's command."""
    good = f"person,account\nT2,{LISTED}\nT1,t2\n"
    printed = stand.script("rooms-office", "accounts", "list", given="\ufeff" + good)
    check("a list comes in", printed == "list, 2 accounts\n", printed)
    told = [signed_in_as(stand, account) for account in (LISTED, "t2", "t1", *UNLISTED)]
    check("by which an account counts sign by sign", told == ["T2", "T1", *[(403, "NoPerson")] * (1 + len(UNLISTED))], told)
    bad = {
        "T1,a\nT2,A\n": "row 3 of the list: another row has this account", "T1,a\nT2,ａ\n": "row 3 of the list: another row",
        f"T1,{LISTED}\nT2,{UNLISTED[1]}\n": "row 3 of the list: another row",
        "T1,a\nT1,b\n": "row 3 of the list: T1 has an account in another row",
        "T9,a\n": "row 2 of the list: nobody in the register",
        "t1,a\n": "row 2 of the list: this is no identifier", "T1, a\n": "row 2 of the list: an account has",
        "T1,\n": "row 2 of the list: an account has", "T1,a,b\n": "row 2 of the list: it has 3 fields",
        'T1,"a\nb"\n': "row 2 of the list: an account has", "T1,\x80": "row 2 of the list: an account has", 'T1,"a': "no CSV",
        "x" * 262_144: "more than 262,144 bytes", "T1,\ufffd\n": "not in UTF-8",
    }
    for text, said in bad.items():
        told = stand.ask(ask="set-accounts", rule="list", list="person,account\n" + text).get("fault", "")
        same = stand.ask(ask="accounts") == {"rule": "list", "count": 2}
        same = same and "Nothing was changed" in told
        check(f"a list with {text[:30]!r} is refused, and nothing has changed", said in told and same, told)
    status, _, beside = stand.command("accounts", "list", given="account,person\n")
    check("the clerk's command says why", status == 3 and "the first line of the list is not person,account" in beside, beside)
    told = stand.ask(ask="set-accounts", rule="any").get("fault", "")
    check("and so is a rule that is none", "there is no rule" in told, told)
    told = stand.script("rooms-office", "about", "T2")
    check("who asks what is kept of a person reads the account", f"account {LISTED}\n" in told, told)
    stand.start_page()
    shown = Page(stand).get("/office/about/T2")[2]
    check("also on the office's page", f"<dd>{LISTED}</dd>" in shown, shown)
    kept = stand.data / "accounts"
    check("only the keeper's account reads the file", kept.stat().st_mode & 0o777 == 0o600, oct(kept.stat().st_mode))
    before = kept.read_bytes()
    kept.write_bytes(before[:30])
    whose = signed_in_as(stand, LISTED)
    check("a damaged file lets nobody in", whose == (503, "Unavailable"), whose)
    status, _, beside = stand.command("accounts")
    check("and the clerk reads so", status == 3 and "is damaged" in beside, beside)
    stand.script("rooms-office", "accounts", "list", given=good)


def try_person(stand):
    """What becomes of a session whose person gets another key, leaves the register, or comes again as somebody else."""
    browser = Browser(stand)
    browser.sign_in(LISTED)
    key = stand.script("rooms-office", "key", "T2").strip()
    check("another key for the person does not end the session", browser.whose() == "T2", browser.whose())
    check("and the old key is over", browser.get("/me", ("Room-Key", key_of("T2"))).status == 403)
    check("while the new one works", browser.get("/me", ("Room-Key", key)).status == 200)
    for line in ("cancel", "remove T2"):
        stand.office(line)
    check("who has left the register is nobody", browser.whose() == (403, "NoPerson"), browser.whose())
    stand.script("rooms-office", "do", "--again", "T2", "-", given=f"person T2 {key_of('T2')} Some Body Else\n")
    check("and stays so where somebody else gets the identifier", browser.whose() == (403, "NoPerson"), browser.whose())
    check("the list has forgotten the account", LISTED not in (stand.data / "accounts").read_text(encoding="utf-8"))
    stand.script("rooms-office", "accounts", "capitals")
    browser = Browser(stand)
    browser.sign_in("t1")
    stand.office("room A-9")
    check("a line of the office ends no session", browser.whose() == "T1", browser.whose())
    stand.script("rooms-office", "forget", "T1")
    check("who is forgotten is nobody", browser.whose() == (403, "NoPerson"), browser.whose())


def try_tokens(stand):
    """Tokens that the provider did not sign, or not for this sign-in."""
    provider = stand.provider
    other = rsa.generate_private_key(public_exponent=65537, key_size=2048)
    twists = {
        "signed by another key": lambda claims: provider.signed(claims, other),
        "signed by the secret": lambda claims: provider.signed(claims, CLIENT_SECRET, "HS256"),
        "signed in another way": lambda claims: provider.signed(claims, None, "RS512"),
        "changed after it was signed": changed(provider),
        "for another proxy": lambda claims: {**claims, "aud": "other"},
        "of another provider": lambda claims: {**claims, "iss": "https://other.example"},
        "that is over": lambda claims: {**claims, "exp": int(time.time()) - 3600, "iat": int(time.time()) - 7200},
        "of another sign-in": lambda claims: {**claims, "nonce": "other"},
        "without a nonce": lambda claims: {name: value for name, value in claims.items() if name != "nonce"},
    }
    for what, twist in twists.items():
        provider.twist = twist
        browser = Browser(stand)
        browser.sign_in("t2")
        check("a token comes", provider.tokens.pop()["preferred_username"] == "t2")
        check(f"which is {what}, and signs nobody in", browser.whose() == (401, None), browser.whose())
        check("and leads back to the page", browser.been[-1] == "/?account", browser.been)
    provider.twist = as_it_is
    browser = Browser(stand)
    browser.sign_in("t2")
    check("one that is right does: the trial can see it", browser.whose() == "T2", browser.whose())
    back = next(address for address in browser.been if "code=" in address)
    victim = Browser(stand)
    victim.follow(back)
    check("the address to which the provider led signs no other browser in", victim.whose() == (401, None), victim.whose())
    browser.follow(back)
    check("and counts once", browser.whose() in ("T2", (401, None)), browser.whose())


def changed(provider):
    """Takes the signature of one token for another one."""
    def twist(claims):
        head, _, signature = provider.signed({**claims, "preferred_username": "x"}).split(".")
        return ".".join([head, provider.signed(claims).split(".")[1], signature])
    return twist
