// ---- colours

// The luminance of WCAG, from 0 to 1, of red, green and blue from 0 to 1.
function luminanceOf(channels) {
  const [red, green, blue] = channels.map((part) => (part <= 0.04045 ? part / 12.92 : ((part + 0.055) / 1.055) ** 2.4));
  return 0.2126 * red + 0.7152 * green + 0.0722 * blue;
}

function contrastOf(one, other) {
  return (Math.max(one, other) + 0.05) / (Math.min(one, other) + 0.05);
}

// The luminance of a colour that is written as #rrggbb.
function luminanceOfHex(text) {
  return luminanceOf([1, 3, 5].map((at) => Number.parseInt(text.slice(at, at + 2), 16) / 255));
}

// Red, green and blue of a hue in degrees; saturation and lightness are from 0 to 1.
function channelsOf(hue, saturation, lightness) {
  const reach = saturation * Math.min(lightness, 1 - lightness);
  return [0, 8, 4].map((n) => {
    const k = (n + hue / 30) % 12;
    return lightness - reach * Math.max(-1, Math.min(k - 3, 9 - k, 1));
  });
}

// The colour of digits on a ground: the one of more contrast.
function digitsOn(luminance) {
  return contrastOf(1, luminance) >= contrastOf(0, luminance) ? '#ffffff' : '#000000';
}

const COLOURS = [
  'page', 'card', 'ink', 'soft', 'line', 'floor', 'wall', 'shelf', 'grid', 'idle', 'accent', 'mark', 'fault', 'heat',
];
const SATURATION = 0.62;
const LEAST_CONTRAST = 3;

// A colour for each robot: hues far from one another, as light or dark as it takes to stand out from the floor.
function robotColour(robot, floor) {
  const hue = (robot * 137.508) % 360;
  const step = floor > 0.5 ? -0.02 : 0.02;
  let lightness = 0.46;
  let luminance = luminanceOf(channelsOf(hue, SATURATION, lightness));
  while (contrastOf(luminance, floor) < LEAST_CONTRAST) {
    lightness += step;
    luminance = luminanceOf(channelsOf(hue, SATURATION, lightness));
  }
  return { fill: `hsl(${hue.toFixed(1)} 62% ${Math.round(lightness * 100)}%)`, luminance, digits: digitsOn(luminance) };
}

function readColours(robots) {
  const style = getComputedStyle(document.documentElement);
  const colours = {};
  for (const name of COLOURS) {
    colours[name] = style.getPropertyValue(`--${name}`).trim();
  }
  const floor = luminanceOfHex(colours.floor);
  colours.robots = Array.from({ length: robots }, (_, robot) => robotColour(robot, floor));
  colours.digitsOnIdle = digitsOn(luminanceOfHex(colours.idle));
  return colours;
}

// The shades of heat as pixels: 255 steps of one colour, and nothing where no robot came.
function shadesOf(heat) {
  const [red, green, blue] = heat.split(',').map(Number);
  const bytes = new Uint8ClampedArray(256 * 4);
  for (let step = 1; step < 256; step += 1) bytes.set([red, green, blue, 30 + 180 * step / 255], 4 * step);
  return new Uint32Array(bytes.buffer);
}
