// What a page says that acts as a desk, and what became of an act, in German.

export default {
  myDesk: "Mein Platz",
  choose: "wählen",
  chooseDesk: "Zuerst den Platz wählen.",
  otherPage: "Eine andere Seite dieses Browsers hat diesen Platz. Dort weitermachen oder sie "
    + "schließen.",
  lostActs: "Dieser Browser hat Handlungen von Platz {desk} aufgehoben, die nicht lesbar sind. Ob "
    + "sie getan sind, ist nicht bekannt: die Chargen ansehen und wiederholen, was fehlt.",
  lostText: "Aufgehoben war: {text}",
  looked: "Angesehen",
  noRoom: "Der Browser behält nichts für die Seite, oder es ist kein https: nichts wird gesendet.",
  // what became of an act
  done: "Getan: Zeile {row}.",
  doubt: "An diesem Platz arbeitet eine andere Seite, bei Auftrag {kept}. Ob dies getan wurde, ist "
    + "nicht bekannt: die Charge ansehen und nur wiederholen, was fehlt.",
  notYours: "Dieser Platz gehört Ihnen nicht: den eigenen wählen oder die Betreuung fragen.",
  broken: "Das Büro nimmt dies nicht an ({word}). Nichts wurde getan. Die Seite neu laden.",
  verdict: "Urteil",
  refusedBy: "Das Buch hat dies abgelehnt ({number}). Die Seite neu laden, um zu lesen, warum.",
};
