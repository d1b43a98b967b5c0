// A short sound where the browser allows one: it allows none before the page was touched, unless it
// is started for a wall (OPERATING says how).

const HIGH = 880;
const LONG = .35;
const LOUD = .2;

let context = null;

// Sounds once. Says whether it was heard.
export async function sound() {
  try {
    context ??= new AudioContext();
    if (context.state !== "running") await Promise.race([context.resume(), pause()]);
    if (context.state !== "running") return false;
    const [tone, volume] = [context.createOscillator(), context.createGain()];
    tone.frequency.value = HIGH;
    volume.gain.value = LOUD;
    tone.connect(volume).connect(context.destination);
    tone.start();
    tone.stop(context.currentTime + LONG);
    return true;
  } catch {
    return false;
  }
}

const pause = () => new Promise((go) => setTimeout(go, 300));
