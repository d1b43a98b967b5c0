// The texts of the desk in German: its lists and its steps.

export default {
  // the lists
  waits: "Wartet auf Sie",
  changingLanes: "Linien, die die Charge wechseln",
  noBatch: "Keine Charge",
  changeLane: "Wechseln",
  runs: "Läuft, nichts zu tun",
  closedLately: "Abgeschlossen",
  otherActs: "Jede andere Handlung",
  findAct: "Handlung suchen",
  noAct: "Keine Handlung heißt so.",
  nothingWaits: "Nichts wartet. Chargen, die jemanden brauchen, kommen von selbst hierher.",
  chooseTask: "Links eine Charge wählen oder darunter eine Handlung.",
  "next held": "gesperrt: Packung streichen oder Tara berichtigen",
  "next end": "ihre Linien stehen: beenden",
  "next draw": "Probe ziehen",
  "next measure": "nachwiegen, {measured} von {count} getan",
  "next second": "zweite Probe ziehen",
  "next close": "abschließen",
  noForm: "Keine Antwort: das Formular kann jetzt nicht gezeigt werden.",
  told: "Antworten des Buchs",
  bookDay: "Tag des Buchs: {day}",
  inForce: "Was gilt",
  // the steps
  "step weigh": "Wiegen",
  "step end": "Beenden",
  "step draw": "Ziehen",
  "step measure": "Nachwiegen",
  "step close": "Abschließen",
  stepDone: "getan",
  weighTitle: "{batch} läuft",
  weighText: "Nichts zu tun: beenden geht, wenn ihre Linien stehen.",
  endTitle: "{batch} beenden?",
  endText: "Alle ihre Linien stehen. Danach kommt keine Packung mehr dazu.",
  endDo: "Charge beenden",
  drawTitle: "{first} von {count} Packungen ziehen",
  drawText:
    "Der Plan für {count} Packungen: höchstens {c1} von {first} unter T1 nimmt an, {r1} weist "
    + "zurück; dazwischen werden {second} weitere gezogen.",
  drawAll: "Unter 100 Packungen werden alle nachgewogen: höchstens {c1} davon unter T1 nimmt an.",
  keepWhole: "Die Packungen bleiben heil",
  keepHint: "ganz gewogen, abzüglich Tara",
  destroyWhole: "Die Packungen werden geöffnet",
  destroyHint: "20 Packungen, jede mit eigenem Leergewicht",
  wordHint:
    "Von dieser Maschine erdacht; wer es kennt, kann die Probe noch einmal ziehen. Der Prüfer "
    + "darf eines geben.",
  drawDo: "Probe ziehen",
  measureTitle: "Probe nachwiegen: {done} von {all} getan",
  measureText: "Sie können jederzeit aufhören; was erfasst ist, bleibt.",
  secondTitle: "{d1} unter T1 lassen es offen",
  secondText:
    "Mit höchstens {c1} wäre sie jetzt angenommen, mit {r1} zurückgewiesen. {second} weitere "
    + "entscheiden: höchstens {c2} von beiden zusammen.",
  secondDo: "Zweite Probe ziehen",
  heldTitle: "{batch} ist gesperrt",
  heldText: "Einer Packung, die zählt, fehlt mehr als das Doppelte des Fehlers; darum wird jede "
    + "Packung ausgeschleust. Ist sie gefunden und heraus? Dann streichen. War die Tara "
    + "falsch? Dann berichtigen.",
  closeTitle: "{batch} abschließen",
  closeText:
    "Die Probe ist nachgewogen und entscheidet. Das Urteil kann danach nicht geändert werden.",
  closeEmpty: "Keine Packung zählt: sie wird als leer abgeschlossen.",
  closeDo: "Charge abschließen",
  closedTitle: "{batch} ist abgeschlossen",
  closedText: "Ihr Blatt kann gedruckt werden.",
  wouldNow: "Alle Packungen jetzt",
  countsNow: "Packungen, die zählen",
  overNow: "Durchschnitt über Nennmenge",
  lightNow: "Untermaß von erlaubt",
  defectsNow: "Fehlerhaft in der Probe",
  c1r1: "{d1}, c1 = {c1}, r1 = {r1}",
  c2r2: "{both}, c2 = {c2}, r2 = {r2}",
  toSheet: "Blatt",
  toChart: "Karte",
};
