// All texts of the page, by language. The first language is the one for browsers that ask for none of these.
//
// To add a language: copy the object `en`, name it by the code that browsers use (`fr`, `pt-BR`), and translate what
// stands in quotation marks. A part in braces, such as {room}, stays as it is: the page puts the value there. A text
// that is missing is shown in the first language. Nothing else has to be changed.

export const TEXTS = {
  en: {
    languageName: "English",
    // "rtl" where the language is written from right to left.
    direction: "ltr",
    title: "Room exchange",
    language: "Language",
    signOut: "Sign out",

    signInHeading: "Sign in",
    keyLabel: "Your key",
    keyHint: "16 to 64 letters and digits, from the accommodation office. Spaces, hyphens and capitals make no "
      + "difference.",
    showKey: "Show the key",
    signIn: "Sign in",
    signInByAccount: "Sign in with your college account",
    keyFromLink: "The key of your link is filled in. Press \"Sign in\".",
    badKey: "A key has 16 to 64 letters (a to z) and digits. Please look at it again.",
    signedIn: "Signed in.",
    signedOut: "Signed out.",
    timeEnds: "You have not used this page for nine minutes. In one minute it signs you out. Press a key or touch the "
      + "page to stay signed in.",
    stillSignedIn: "You are still signed in.",
    timedOut: "You are signed out, because this page was not used for a while. A list that you had begun is still in "
      + "this tab: sign in again to hand it in.",

    roundHeading: "Your round",
    facts: {
      name: "Name",
      person: "Identifier",
      home: "Room now",
      round: "Round",
      phase: "Phase",
      part: "Taking part",
    },
    noHome: "none",
    noRoundYet: "none yet",
    phases: {
      idle: "No round is open.",
      open: "Open: you can change your list.",
      openToOthers: "Open.",
      closed: "Closed: lists can no longer be changed.",
      drawn: "Closed: the order has been drawn.",
      ran: "Closed: the rooms are being worked out.",
      published: "The results are out.",
    },
    part: { yes: "yes", withdrawn: "no, you have withdrawn", going: "no, you leave the college", idle: "no round now" },

    // What becomes of somebody without any other room.
    keeps: "you keep room {home}",
    getsNone: "you get no room",

    result: {
      gets: "Result: you get room {room}.",
      keeps: "Result: you keep room {room}.",
      none: "Result: you get no room.",
      withdrawn: "You have withdrawn: {outcome}.",
      going: {
        homed: "You leave the college: room {home} is given out in this round, and you move out at its end.",
        homeless: "You leave the college, and you have no room.",
      },
    },
    next: {
      going: "If you do not leave the college after all, tell the accommodation office at once.",
      gets: "The accommodation office will tell you when you move.",
      keeps: "There is nothing that you have to do.",
      none: "Please speak to the accommodation office. It knows which rooms are still free, and when the next round "
        + "is.",
      idle: "The accommodation office announces the next round. After a round, \"Room now\" is the room that it gave "
        + "you.",
      idleNone: "You have no room at present. Please speak to the accommodation office. It knows which rooms are free, "
        + "and when the next round is.",
    },

    recordHeading: "List on record",
    record: {
      nothing: "None. Either nothing was handed in for you yet, or an empty list. Both mean the same: "
        + "{outcome}.",
      empty: "You handed in an empty list: {outcome}.",
      closed: "None: {outcome}.",
      withdrawn: "You have withdrawn, so no list counts.",
      going: "You leave the college, so no list counts.",
    },
    askAgain: "Ask the server again",
    waiting: "Asking the server ...",
    asked: "This is what the server has now.",

    promisesHeading: "What you can rely on",
    asking: {
      homed: "You never lose by asking. You keep room {home}, or you get a room that you put above it.",
      homeless: "You never lose by asking. You get a room from your list, or none: so list every room that you would "
        + "take.",
    },
    trueList: "A true list is a best list. Put the rooms in the order in which you want them: no other list gets you "
      + "one of these rooms that you want more.",
    handsInNothing: "If you hand in nothing, {outcome}.",
    handsInNoOther: "If you hand in no other list, the one on record counts.",

    roomsHeading: "Rooms",
    askForAny: "You may ask for a free room, and also for a room that somebody lives in. Nobody loses a room by that: "
      + "they leave it only for a room that they want more.",
    findLabel: "Find a room",
    findHint: "Type a part of its code, or what stands beside it, such as \"free\".",
    count: "Rooms found: {found} of {all}.",
    more: "Show more rooms",
    states: {
      free: "free",
      occupied: "lived in, may be asked for",
      shut: "shut, can't be asked for",
      own: "your room",
    },
    add: "Add",
    addLabel: "Add room {room}",
    onList: "on your list",
    // Of bare numbers in what the office says of a room.
    room: { floor: "floor {value}", size: "{value} m²" },
    pictures: { all: "Pictures of {room}: {count}", one: "Picture {number} of room {room}" },
    filters: {
      house: "House",
      allHouses: "All houses",
      rent: "Rent up to",
      rentHint: "With a rent, rooms whose rent is not known are left out.",
      badRent: "This is no amount. Write a number, such as 450.",
      free: "Only free rooms",
    },
    contact: "Questions: {contact}",
    // By which the date is written.
    locale: "en-GB",
    until: "Lists are taken until {date}.",
    untilPast: "Lists were to be handed in until {date}. The office may close the round at any time.",

    listHeading: "Your list",
    listHint: "The room that you want most comes first. There may be 40. A room after your own does not count.",
    keyboardHint: "With a keyboard, Alt and an arrow key also move the room whose button is selected.",
    up: "Move {room} up",
    down: "Move {room} down",
    remove: "Remove {room}",
    notes: {
      own: "your room",
      after: "after your own: does not count",
      shut: "shut: remove it",
      unknown: "unknown: remove it",
    },
    state: {
      recorded: "{count} of {most} rooms. Handed in.",
      empty: "No rooms yet: {outcome}.",
      changed: "{count} of {most} rooms. Not handed in yet.",
      elsewhere: "Not handed in yet. The list on record was changed elsewhere.",
    },
    handIn: "Hand in the list",
    undo: "Back to the list on record",
    added: "{room} is number {place} of {count}.",
    removed: "{room} removed.",
    undone: "The list on record is back.",
    handedIn: "Handed in. On record: {list}.",
    handedInEmpty: "Handed in: an empty list.",
    nothingNew: "Nothing to hand in: this is the list on record.",
    draftBack: "The list that you had begun is still here. It is not handed in yet.",
    draftLate: "The list that you had begun was not handed in, and can no longer be. What counts is shown here.",
    emptyList: "no rooms",

    elsewhere: {
      heading: "Your list was changed elsewhere",
      text: "Since you began the list on this page, another one was handed in: on another device, or by the office. "
        + "Which one should count?",
      record: "On record now",
      here: "Your list here",
      later: "Decide later",
      keep: "Keep the one on record",
      replace: "Hand in my list here",
      waits: "Nothing was changed. Your list here is not handed in yet.",
    },

    withdrawHeading: "Withdraw",
    withdraw: "Withdraw ...",
    withdrawText: {
      homed: "You need not withdraw to keep your room: without a list, or with an empty one, you keep it too, and as "
        + "long as the round is open you can still change your mind. If you withdraw, neither you nor room {home} "
        + "takes part in this round. That cannot be undone.",
      homeless: "You need not withdraw if you want no room: without a list, or with an empty one, you get none, and as "
        + "long as the round is open you can still change your mind. If you withdraw, you do not take part in this "
        + "round. That cannot be undone.",
    },
    withdrawQuestion: {
      heading: "Withdraw from this round?",
      homed: "You cannot come back in this round. You keep room {home}.",
      homeless: "You cannot come back in this round. You get no room in it.",
      stay: "No, stay in",
      go: "Yes, withdraw",
    },
    stayed: "You are still in the round. Nothing was changed.",
    withdrawn: "You have withdrawn from this round.",

    signOutQuestion: {
      heading: "Your list is not handed in",
      text: "If you sign out now, your changes are lost. What is on record stays.",
      stay: "No, stay here",
      go: "Sign out all the same",
    },

    aboutHeading: "How the exchange works for you",
    about: [
      ["You make a list.", "While the round is open, you put rooms in the order in which you want them, and hand the "
        + "list in. You can change it until the round is closed. The list that is on record then counts."],
      ["The order is drawn.", "When the round is closed, all who take part are put in an order by lot. If the office has "
        + "announced groups, all of an earlier group come before all of a later one."],
      ["The rooms are given.", "One after the other gets the best room on their list that is still there. If somebody "
        + "lives in that room, this person chooses first, and keeps it unless they get a room that they want more. Two "
        + "people who want each other's room exchange them, and so do more people in a circle."],
      ["You see your result here.", "The office shows all results at the same time, and then says who moves when."],
      ["What others see.", "This page shows you your own list and your own result. The accommodation office sees all "
        + "lists."],
      ["Your key.", "With your key others can act in your name, and nobody can see afterwards who handed in a list. So "
        + "keep it to yourself, and ask the office for another key if somebody may have read it. This page keeps it, and "
        + "a list that you have begun, only in this tab of your browser, until you sign out or close the tab. If you do "
        + "not use the page for ten minutes, it forgets the key. On a computer that others use, sign out."],
    ],

    // What is said of a fault: by the name that the server gives it, or else by its status.
    faults: {
      BadPhase: "The round is not open now, so nothing can be changed. What is on record is shown here.",
      Withdrawn: "You have withdrawn from this round, so the list can't be changed.",
      Going: "The office has noted that you leave the college, so the list can't be changed.",
      TooManyChoices: "The list has more than 40 rooms. Nothing was changed. Remove some and hand it in again.",
      RoomRepeated: "A room stands on the list twice. Nothing was changed. Remove one and hand it in again.",
      UnknownRoom: "A room on your list is no longer known. Remove the marked rooms and hand it in again.",
      RoomShut: "A room on your list has been shut. Remove the marked rooms and hand it in again.",
      Unavailable: "The server can't do this at the moment. Please try again in a few minutes.",
      400: "The server did not understand this page. Nothing was changed. Please load the page again.",
      401: "You are not signed in with your college account, or no longer. Please sign in again.",
      403: "This key is not known. Please look at it again, or ask the accommodation office.",
      NoPerson: "Your college account is with nobody in the register. Please sign in with your key, or ask the accommodation "
        + "office.",
      404: "This page does not fit the server. Nothing was changed. Please load the page again; if that does not help, "
        + "tell the accommodation office.",
      408: "The connection is too slow. Nothing was changed. Please try again.",
      413: "The list is too long for the server. Nothing was changed. Remove some rooms and hand it in again.",
      429: "Too many requests came from your network. Nothing was changed. Please wait a minute and try again.",
      busy: "The server is busy or is being restarted.",
      unreached: "The server can't be reached. Please look at your network connection.",
    },
    unsure: "It is not known whether your change was recorded: press \"Ask the server again\" and look at what is on "
      + "record.",
    unchanged: "Nothing was changed. Please try again.",
  },

  de: {
    languageName: "Deutsch",
    direction: "ltr",
    title: "Zimmertausch",
    language: "Sprache",
    signOut: "Abmelden",

    signInHeading: "Anmelden",
    keyLabel: "Ihr Zugangscode",
    keyHint: "16 bis 64 Buchstaben und Ziffern; Sie haben ihn von der Wohnheimverwaltung bekommen. Leerzeichen, "
      + "Bindestriche und Großschreibung spielen keine Rolle.",
    showKey: "Zugangscode anzeigen",
    signIn: "Anmelden",
    signInByAccount: "Mit dem Konto der Hochschule anmelden",
    keyFromLink: "Der Zugangscode aus Ihrem Link ist eingetragen. Drücken Sie „Anmelden“.",
    badKey: "Ein Zugangscode besteht aus 16 bis 64 Buchstaben (a bis z) und Ziffern. Bitte prüfen Sie Ihre Eingabe.",
    signedIn: "Sie sind angemeldet.",
    signedOut: "Sie sind abgemeldet.",
    timeEnds: "Sie haben diese Seite seit neun Minuten nicht benutzt. In einer Minute meldet sie Sie ab. Drücken Sie "
      + "eine Taste, oder berühren Sie die Seite, um angemeldet zu bleiben.",
    stillSignedIn: "Sie sind weiterhin angemeldet.",
    timedOut: "Sie sind abgemeldet, weil diese Seite eine Weile nicht benutzt wurde. Eine begonnene Liste ist noch in "
      + "diesem Tab: Melden Sie sich wieder an, um sie abzugeben.",

    roundHeading: "Ihre Runde",
    facts: { name: "Name", person: "Kennung", home: "Ihr Zimmer", round: "Runde", phase: "Stand", part: "Teilnahme" },
    noHome: "keines",
    noRoundYet: "noch keine",
    phases: {
      idle: "Zurzeit läuft keine Runde.",
      open: "Offen: Sie können Ihre Wunschliste ändern.",
      openToOthers: "Offen.",
      closed: "Geschlossen: Wunschlisten können nicht mehr geändert werden.",
      drawn: "Geschlossen: Die Reihenfolge ist ausgelost.",
      ran: "Geschlossen: Die Zimmer werden gerade zugeteilt.",
      published: "Die Ergebnisse liegen vor.",
    },
    part: {
      yes: "ja",
      withdrawn: "nein, Sie sind ausgestiegen",
      going: "nein, Sie ziehen aus",
      idle: "zurzeit keine Runde",
    },

    keeps: "Sie behalten Zimmer {home}",
    getsNone: "Sie bekommen kein Zimmer",

    result: {
      gets: "Ergebnis: Sie bekommen Zimmer {room}.",
      keeps: "Ergebnis: Sie behalten Zimmer {room}.",
      none: "Ergebnis: Sie bekommen kein Zimmer.",
      withdrawn: "Sie sind ausgestiegen: {outcome}.",
      going: {
        homed: "Sie ziehen aus dem Wohnheim aus: Zimmer {home} wird in dieser Runde vergeben, und an ihrem Ende ziehen "
          + "Sie aus.",
        homeless: "Sie ziehen aus dem Wohnheim aus und haben kein Zimmer.",
      },
    },
    next: {
      going: "Wenn Sie doch bleiben, sagen Sie es der Wohnheimverwaltung sofort.",
      gets: "Die Wohnheimverwaltung teilt Ihnen mit, wann Sie umziehen.",
      keeps: "Sie brauchen nichts weiter zu tun.",
      none: "Bitte wenden Sie sich an die Wohnheimverwaltung. Sie weiß, welche Zimmer noch frei sind und wann die "
        + "nächste Runde ist.",
      idle: "Die Wohnheimverwaltung kündigt die nächste Runde an. Nach einer Runde steht unter „Ihr Zimmer“ das "
        + "Zimmer, das Sie darin bekommen haben.",
      idleNone: "Sie haben zurzeit kein Zimmer. Bitte wenden Sie sich an die Wohnheimverwaltung. Sie weiß, welche "
        + "Zimmer frei sind und wann die nächste Runde ist.",
    },

    recordHeading: "Gespeicherte Wunschliste",
    record: {
      nothing: "Keine. Entweder wurde für Sie noch nichts abgegeben, oder eine leere Liste. Beides "
        + "bedeutet: {outcome}.",
      empty: "Sie haben eine leere Liste abgegeben: {outcome}.",
      closed: "Keine: {outcome}.",
      withdrawn: "Sie sind ausgestiegen, deshalb zählt keine Liste.",
      going: "Sie ziehen aus, deshalb zählt keine Liste.",
    },
    askAgain: "Server erneut fragen",
    waiting: "Der Server wird gefragt ...",
    asked: "Das ist der jetzige Stand auf dem Server.",

    promisesHeading: "Worauf Sie sich verlassen können",
    asking: {
      homed: "Fragen kostet nichts. Sie behalten Zimmer {home}, oder Sie bekommen eines, das auf Ihrer Liste davor "
        + "steht.",
      homeless: "Fragen kostet nichts. Sie bekommen ein Zimmer von Ihrer Liste oder keines: Nennen Sie also jedes "
        + "Zimmer, das Sie nehmen würden.",
    },
    trueList: "Eine ehrliche Liste ist die beste. Ordnen Sie die Zimmer so, wie Sie sie wirklich haben möchten: Mit "
      + "keiner anderen Liste bekommen Sie eines davon, das Sie lieber hätten.",
    handsInNothing: "Wenn Sie nichts abgeben, heißt das: {outcome}.",
    handsInNoOther: "Wenn Sie keine andere Liste abgeben, gilt die gespeicherte.",

    roomsHeading: "Zimmer",
    askForAny: "Sie können sich ein freies Zimmer wünschen und auch eines, in dem jemand wohnt. Niemand wird dadurch "
      + "verdrängt: Die Person, die dort wohnt, zieht nur aus, wenn sie dafür ein Zimmer bekommt, das ihr lieber ist.",
    findLabel: "Zimmer suchen",
    findHint: "Geben Sie einen Teil der Zimmernummer ein oder etwas, das daneben steht, zum Beispiel „frei“.",
    count: "Gefundene Zimmer: {found} von {all}.",
    more: "Weitere Zimmer zeigen",
    states: {
      free: "frei",
      occupied: "bewohnt, darf gewünscht werden",
      shut: "gesperrt, nicht zu bekommen",
      own: "Ihr Zimmer",
    },
    add: "Hinzufügen",
    addLabel: "Zimmer {room} hinzufügen",
    onList: "auf Ihrer Liste",
    room: { floor: "Etage {value}", size: "{value} m²" },
    pictures: { all: "Bilder von {room}: {count}", one: "Bild {number} von Zimmer {room}" },
    filters: {
      house: "Haus",
      allHouses: "Alle Häuser",
      rent: "Miete bis",
      rentHint: "Mit einer Miete werden Zimmer ausgelassen, deren Miete nicht bekannt ist.",
      badRent: "Das ist kein Betrag. Geben Sie eine Zahl ein, zum Beispiel 450.",
      free: "Nur freie Zimmer",
    },
    contact: "Fragen: {contact}",
    locale: "de-DE",
    until: "Wunschlisten werden angenommen bis {date}.",
    untilPast: "Wunschlisten waren bis {date} abzugeben. Die Wohnheimverwaltung kann die Runde jederzeit schließen.",

    listHeading: "Ihre Wunschliste",
    listHint: "An erster Stelle steht das Zimmer, das Sie am liebsten hätten. Es dürfen 40 sein. Was nach Ihrem "
      + "eigenen Zimmer kommt, zählt nicht.",
    keyboardHint: "Mit der Tastatur verschieben auch Alt und eine Pfeiltaste das Zimmer, dessen Schaltfläche "
      + "ausgewählt ist.",
    up: "{room} nach oben",
    down: "{room} nach unten",
    remove: "{room} entfernen",
    notes: {
      own: "Ihr Zimmer",
      after: "nach Ihrem eigenen: zählt nicht",
      shut: "gesperrt: bitte entfernen",
      unknown: "unbekannt: bitte entfernen",
    },
    state: {
      recorded: "{count} von {most} Zimmern. Abgegeben.",
      empty: "Noch keine Zimmer: {outcome}.",
      changed: "{count} von {most} Zimmern. Noch nicht abgegeben.",
      elsewhere: "Noch nicht abgegeben. Die gespeicherte Liste wurde anderswo geändert.",
    },
    handIn: "Liste abgeben",
    undo: "Zurück zur gespeicherten Liste",
    added: "{room} steht auf Platz {place} von {count}.",
    removed: "{room} ist entfernt.",
    undone: "Die gespeicherte Liste ist wieder da.",
    handedIn: "Abgegeben. Gespeichert ist: {list}.",
    handedInEmpty: "Sie haben eine leere Liste abgegeben.",
    nothingNew: "Es gibt nichts abzugeben: Diese Liste ist schon gespeichert.",
    draftBack: "Ihre begonnene Liste ist noch da. Sie ist noch nicht abgegeben.",
    draftLate: "Ihre begonnene Liste wurde nicht abgegeben, und das geht nun nicht mehr. Hier steht, was zählt.",
    emptyList: "keine Zimmer",

    elsewhere: {
      heading: "Ihre Liste wurde anderswo geändert",
      text: "Seit Sie die Liste auf dieser Seite begonnen haben, wurde eine andere abgegeben: auf einem anderen Gerät "
        + "oder von der Wohnheimverwaltung. Welche soll zählen?",
      record: "Jetzt gespeichert",
      here: "Ihre Liste hier",
      later: "Später entscheiden",
      keep: "Die gespeicherte behalten",
      replace: "Meine Liste hier abgeben",
      waits: "Es wurde nichts geändert. Ihre Liste hier ist noch nicht abgegeben.",
    },

    withdrawHeading: "Aussteigen",
    withdraw: "Aussteigen ...",
    withdrawText: {
      homed: "Um Ihr Zimmer zu behalten, brauchen Sie nicht auszusteigen: Ohne Liste oder mit einer leeren Liste "
        + "behalten Sie es ebenfalls, und solange die Runde offen ist, können Sie es sich noch anders überlegen. Wenn "
        + "Sie aussteigen, nehmen weder Sie noch Zimmer {home} an dieser Runde teil. Das lässt sich nicht "
        + "rückgängig machen.",
      homeless: "Wenn Sie kein Zimmer möchten, brauchen Sie nicht auszusteigen: Ohne Liste oder mit einer leeren Liste "
        + "bekommen Sie keines, und solange die Runde offen ist, können Sie es sich noch anders überlegen. Wenn Sie "
        + "aussteigen, nehmen Sie an dieser Runde nicht teil. Das lässt sich nicht rückgängig machen.",
    },
    withdrawQuestion: {
      heading: "Aus dieser Runde aussteigen?",
      homed: "Sie können in dieser Runde nicht wieder einsteigen. Sie behalten Zimmer {home}.",
      homeless: "Sie können in dieser Runde nicht wieder einsteigen. Sie bekommen darin kein Zimmer.",
      stay: "Nein, dabeibleiben",
      go: "Ja, aussteigen",
    },
    stayed: "Sie sind weiter dabei. Es wurde nichts geändert.",
    withdrawn: "Sie sind aus dieser Runde ausgestiegen.",

    signOutQuestion: {
      heading: "Ihre Liste ist nicht abgegeben",
      text: "Wenn Sie sich jetzt abmelden, gehen Ihre Änderungen verloren. Was gespeichert ist, bleibt.",
      stay: "Nein, hierbleiben",
      go: "Trotzdem abmelden",
    },

    aboutHeading: "So funktioniert der Tausch für Sie",
    about: [
      ["Sie machen eine Liste.", "Solange die Runde offen ist, ordnen Sie Zimmer so, wie Sie sie haben möchten, und "
        + "geben die Liste ab. Sie können sie ändern, bis die Runde geschlossen wird. Es zählt die Liste, die "
        + "dann gespeichert ist."],
      ["Die Reihenfolge wird ausgelost.", "Wenn die Runde geschlossen ist, entscheidet das Los, in welcher Reihenfolge "
        + "alle drankommen. Hat die Wohnheimverwaltung Gruppen angekündigt, so kommen alle aus einer früheren Gruppe "
        + "vor allen aus einer späteren dran."],
      ["Die Zimmer werden zugeteilt.", "Wer an der Reihe ist, bekommt von der eigenen Liste das beste Zimmer, das noch "
        + "da ist. Wohnt dort jemand, so wählt diese Person zuerst und behält ihr Zimmer, wenn sie keines bekommt, das "
        + "ihr lieber ist. Zwei Personen, die jeweils das Zimmer der anderen möchten, tauschen; ebenso mehrere im "
        + "Kreis."],
      ["Ihr Ergebnis sehen Sie hier.", "Die Wohnheimverwaltung zeigt alle Ergebnisse zur selben Zeit und sagt dann, "
        + "wer wann umzieht."],
      ["Was andere sehen.", "Diese Seite zeigt Ihnen Ihre eigene Liste und Ihr eigenes Ergebnis. Die "
        + "Wohnheimverwaltung sieht alle Listen."],
      ["Ihr Zugangscode.", "Mit Ihrem Zugangscode können andere in Ihrem Namen handeln, und später lässt sich nicht "
        + "sehen, wer eine Liste abgegeben hat. Behalten Sie ihn also für sich, und bitten Sie die Wohnheimverwaltung "
        + "um einen neuen, wenn ihn jemand gelesen haben könnte. Diese Seite merkt sich ihn und eine begonnene Liste "
        + "nur in diesem Tab Ihres Browsers, bis Sie sich abmelden oder den Tab schließen. Wenn Sie die Seite zehn "
        + "Minuten lang nicht benutzen, vergisst sie den Zugangscode. Melden Sie sich an einem Computer, den auch "
        + "andere benutzen, ab."],
    ],

    faults: {
      BadPhase: "Die Runde ist jetzt nicht offen, deshalb lässt sich nichts ändern. Hier steht, was gespeichert ist.",
      Withdrawn: "Sie sind aus dieser Runde ausgestiegen, deshalb lässt sich die Liste nicht ändern.",
      Going: "Bei der Wohnheimverwaltung ist vermerkt, dass Sie ausziehen, deshalb lässt sich die Liste nicht ändern.",
      TooManyChoices: "Die Liste hat mehr als 40 Zimmer. Es wurde nichts geändert. Entfernen Sie einige, und geben Sie "
        + "die Liste erneut ab.",
      RoomRepeated: "Ein Zimmer steht zweimal auf der Liste. Es wurde nichts geändert. Entfernen Sie eines, und geben "
        + "Sie die Liste erneut ab.",
      UnknownRoom: "Ein Zimmer auf Ihrer Liste gibt es nicht mehr. Entfernen Sie die markierten Zimmer, und geben Sie "
        + "die Liste erneut ab.",
      RoomShut: "Ein Zimmer auf Ihrer Liste wurde gesperrt. Entfernen Sie die markierten Zimmer, und geben Sie die "
        + "Liste erneut ab.",
      Unavailable: "Der Server kann das im Augenblick nicht. Bitte versuchen Sie es in ein paar Minuten noch einmal.",
      400: "Der Server hat diese Seite nicht verstanden. Es wurde nichts geändert. Bitte laden Sie die Seite neu.",
      401: "Sie sind nicht oder nicht mehr mit dem Konto der Hochschule angemeldet. Bitte melden Sie sich erneut an.",
      403: "Dieser Zugangscode ist nicht bekannt. Bitte prüfen Sie ihn, oder fragen Sie die Wohnheimverwaltung.",
      NoPerson: "Ihr Konto der Hochschule gehört zu niemandem im Verzeichnis. Bitte melden Sie sich mit Ihrem Zugangscode an, "
        + "oder fragen Sie die Wohnheimverwaltung.",
      404: "Diese Seite passt nicht zum Server. Es wurde nichts geändert. Bitte laden Sie die Seite neu. Wenn das "
        + "nicht hilft, sagen Sie der Wohnheimverwaltung Bescheid.",
      408: "Die Verbindung ist zu langsam. Es wurde nichts geändert. Bitte versuchen Sie es noch einmal.",
      413: "Die Liste ist zu lang für den Server. Es wurde nichts geändert. Entfernen Sie einige Zimmer, und geben Sie "
        + "die Liste erneut ab.",
      429: "Aus Ihrem Netz kamen zu viele Anfragen. Es wurde nichts geändert. Bitte versuchen Sie es in einer Minute "
        + "noch einmal.",
      busy: "Der Server ist beschäftigt oder wird gerade neu gestartet.",
      unreached: "Der Server ist nicht erreichbar. Bitte prüfen Sie Ihre Netzverbindung.",
    },
    unsure: "Es ist nicht bekannt, ob Ihre Änderung gespeichert wurde: Drücken Sie auf „Server erneut fragen“, und "
      + "sehen Sie nach, was gespeichert ist.",
    unchanged: "Es wurde nichts geändert. Bitte versuchen Sie es noch einmal.",
  },
};
