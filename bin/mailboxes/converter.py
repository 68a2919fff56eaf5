"""Makes a configuration of mbsync from one of isync."""
import re

from mailboxes.box_names import ServerNames, chosen_here, plain, written, written_pattern
from mailboxes.box_names import encoded
from mailboxes.carried import Boxes, Carried
from mailboxes.configuration import line_of
from mailboxes.near_folders import Refused

FIRST_TUNNEL_PORT = 1143
SIDES = {"master": "Far", "slave": "Near", "far": "Far", "near": "Near", "none": "None", "both": "Both"}
# What takes the place of a keyword that is left out. None of these changes which messages are synchronised.
LEFT_OUT = {
    "copyarrivaldate": "dates of arrival are not copied",
    "remove": "no mailbox is removed",
    "fsync": "what is written is always put on the disk",
    "bufferlimit": "there is no such limit",
    "fielddelimiter": "no file has such a name",
    "syncstate": "the state stands in the near mailbox",
    "timeout": "a silent server is waited for",
    "authmechs": "the password is sent with LOGIN",
    "authmech": "the password is sent with LOGIN",
    "requirecram": "the password is sent with LOGIN",
    "pipelinedepth": "there is no such limit",
    "disableextension": "there is no such choice",
    "disableextensions": "there is no such choice",
    "usenamespace": "mailboxes have the names that the server lists",
    "pathdelimiter": "mailboxes have the names that the server lists",
    "maxsize": "messages of up to 16 MiB are synchronised",
    "maxmessages": "no message expires",
    "expireunread": "no message expires",
    "expireside": "no message expires",
    "trash": "what is expunged is not kept",
    "trashnewonly": "what is expunged is not kept",
    "trashremotenew": "what is expunged is not kept",
    "expungesolo": "write Expunge where it is wanted",
    "infodelimiter": "it is always a colon",
}
OF_TLS = {"tlstype", "ssltype", "requiressl", "useimaps", "tlsversions", "sslversions", "sslversion", "certificatefile",
          "systemcertificates", "clientcertificate", "clientkey", "cipherstring"}


def sync_words(words):
    """Words of Sync as they are called here, and those that are left out."""
    kept, dropped = [], []
    for word in words:
        new = re.sub("(?i)delete$", "Gone", word)
        new = "Full" if new.lower() == "all" else new
        (dropped if re.search("(?i)(renew|old|upgrade)$", new) else kept).append(new)
    return kept, dropped


class Converter:
    """Makes a configuration of isync's sections. `completed` has the sections of one that was made before, of whose IMAP stores the lines
    stay; `servers` how the server of an IMAP store calls its mailboxes, if it was asked."""

    def __init__(self, sections, completed, servers):
        self.carried = Carried()
        self.sections, self.completed, self.servers = sections, completed, servers
        self.accounts = {s.name: s for s in sections if s.kind == "IMAPAccount"}
        self.imap, self.maildir = {}, {}
        self.port = FIRST_TUNNEL_PORT

    def convert(self):
        makers = {"": self.defaults, "IMAPStore": self.imap_store, "MaildirStore": self.maildir_store, "Channel": self.channel,
                  "Group": self.group, "IMAPAccount": lambda section: None}
        for section in self.sections:
            at, boxes = len(self.carried.text), len(self.carried.boxes)
            try:
                makers[section.kind](section)
            except Refused as why:
                del self.carried.text[at:], self.carried.boxes[boxes:]
                self.carried.failures.append(f"{section.kind} {section.name} is left out: {why}")
        return self.carried

    def leave_out(self, number, keyword, why):
        self.carried.notes.append(f"line {number}: {keyword} is left out: {why}")

    def others(self, section, known):
        """Names each line that is not carried over."""
        for number, keyword, words in section.lines:
            if keyword.lower() in known or (keyword.lower(), words) == ("syncstate", ["*"]):
                continue
            if keyword.lower() not in LEFT_OUT:
                raise Refused(f"line {number}: {keyword} cannot be carried over")
            self.leave_out(number, keyword, LEFT_OUT[keyword.lower()])

    def manner(self, section):
        """The lines Sync, Create and Expunge of a channel, or before any section."""
        for number, keyword, words in section.lines:
            if keyword.lower() == "sync":
                kept, dropped = sync_words(words)
                for word in dropped:
                    self.leave_out(number, f"the word {word} of Sync", "no message has a placeholder")
                if not kept:
                    raise Refused(f"line {number}: no word of Sync is left")
                self.carried.add(line_of("Sync", *kept))
            elif keyword.lower() in ("create", "expunge"):
                if len(words) != 1 or words[0].lower() not in SIDES:
                    raise Refused(f"line {number}: {keyword} takes None, Far, Near or Both")
                self.carried.add(line_of(keyword.capitalize(), SIDES[words[0].lower()]))

    def defaults(self, section):
        self.manner(section)
        self.others(section, {"sync", "create", "expunge"})
        self.carried.add("SyncState *", "")

    # ---- stores

    def imap_store(self, section):
        account = section
        if section.word("account"):
            account = self.accounts.get(section.word("account"))
            if account is None:
                raise Refused(f"no IMAPAccount {section.word('account')} stands above")
        if section.word("path"):
            raise Refused("its Path stands before the names of mailboxes, which cannot be said here")
        if account.last("tunnel"):
            raise Refused("start its Tunnel yourself, and write its end as Host and Port")
        self.carried.add(line_of("IMAPStore", section.name))
        if (done := self.completed.get(("IMAPStore", section.name))) and done.word("pass"):
            self.carried.add(*(line_of(keyword, *words) for _, keyword, words in done.lines))
        else:
            self.address(account)
            self.user(section, account)
        self.carried.add("")
        known = {"account", "host", "port", "user", "usercmd", "pass", "passcmd", "usekeychain"} | OF_TLS
        self.others(section, known)
        if account is not section:
            self.others(account, known)
        self.imap[section.name] = section

    def address(self, account):
        """Host and Port: the end of a tunnel, unless isync did not encrypt the connection."""
        host, port = account.word("host"), account.word("port")
        if not host:
            raise Refused("it has no Host")
        if (account.word("tlstype", "ssltype") or "").lower() == "none":
            self.carried.add(line_of("Host", host), *([line_of("Port", port)] if port else []))
            return
        self.carried.add(f"# The end of a tunnel to {host}, port {port or 993}, which has to be started first (mbsync(1), TLS and passwords).")
        self.carried.add(line_of("Host", "127.0.0.1"), line_of("Port", str(self.port)))
        self.carried.notes.append(f"{account.kind} {account.name}: start a tunnel from 127.0.0.1:{self.port} to {host}:{port or 993}")
        self.port += 1

    def user(self, section, account):
        user = account.word("user")
        self.carried.add(line_of("User", user) if user else "# write: User NAME (isync asked a command or a person)")
        if account.word("pass"):
            self.carried.add(line_of("Pass", account.word("pass")))
        else:
            self.carried.add("# write: Pass PASSWORD (isync asked a command, a keychain or a person)")
            self.carried.notes.append(f"IMAPStore {section.name}: write its Pass, and keep the file private")

    def maildir_store(self, section):
        path = section.word("path")
        if not path or not path.endswith("/"):
            raise Refused("its Path is missing, or does not end with /")
        style = (section.word("subfolders") or "Verbatim").lower()
        if style != "verbatim":
            raise Refused(f"its SubFolders are {style}; make the folders a/b from .a.b, and write Verbatim")
        if (section.word("altmap") or "no").lower() not in ("no", "false", "off", "0"):
            raise Refused("with AltMap UIDs do not stand in the names of files; start over (mbsync(1))")
        if section.last("flatten", "mapinbox"):
            raise Refused("Flatten and MapInbox cannot be carried over")
        self.carried.add(line_of("MaildirStore", section.name), line_of("Path", path))
        if section.word("inbox"):
            self.carried.add(line_of("Inbox", section.word("inbox")))
        self.carried.add("")
        self.others(section, {"path", "inbox", "subfolders", "altmap"})
        self.maildir[section.name] = section

    def names_at(self, store):
        """How the server of an IMAP store calls its mailboxes, as far as it is known."""
        found = self.servers.get(store, ServerNames())
        return ServerNames(self.imap[store].word("pathdelimiter") or found.delimiter, found.prefix)

    # ---- channels

    def channel(self, section):
        (far, far_box), (near, near_box) = section.place("far", "master"), section.place("near", "slave")
        if far not in self.imap or near not in self.maildir:
            raise Refused("its Far is no IMAPStore, or its Near no MaildirStore, that was carried over")
        patterns, names = section.patterns(), self.names_at(far)
        if patterns and (far_box or near_box):
            raise Refused("with Patterns its Far and Near name no mailbox here")
        boxes = Boxes(self.carried, section, self.sections[0], self.maildir[near], names)
        wanted, unwanted = boxes.find((far, far_box or "INBOX"), (near, near_box or "INBOX"))
        far_box, near_box = written(plain(far_box, names), names) if far_box else "", encoded(plain(near_box, names))
        self.carried.add(line_of("Channel", section.name), line_of("Far", f":{far}:{far_box}"), line_of("Near", f":{near}:{near_box}"))
        if patterns:
            self.carried.add(line_of("Patterns", *self.patterns(section.name, patterns, names, wanted, unwanted)))
        self.manner(section)
        self.carried.add("")
        self.others(section, {"far", "near", "master", "slave", "pattern", "patterns", "sync", "create", "expunge"})

    def patterns(self, channel, patterns, names, wanted, unwanted):
        """Patterns that choose here what isync's choose: each mailbox that it has synchronised, and none that it left out."""
        found = [written_pattern(word, names) for word in patterns]
        added = [written(name, names) for name in wanted if not chosen_here(found, written(name, names))]
        added += ["!" + written(name, names) for name in unwanted if chosen_here(found, written(name, names))]
        if added:
            self.carried.notes.append(f"Channel {channel}: added to Patterns, as isync chooses: {' '.join(added)}")
        elif not chosen_here(found, "INBOX") and any(chosen_here([word.lstrip("!") + "X"], "INBOXX") for word in found):
            self.carried.notes.append(f"Channel {channel}: INBOX is matched by the word INBOX alone; see mbsync -l")
        return found + added

    def group(self, section):
        names = section.more + [word for _, keyword, words in section.lines if keyword.lower() in ("channel", "channels") for word in words]
        if any(":" in name for name in names):
            raise Refused("CHANNEL:BOX is a channel of its own here")
        self.carried.add(line_of("Group", section.name, *names), "")
        self.others(section, {"channel", "channels"})
