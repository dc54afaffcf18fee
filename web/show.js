// LSAs out of what is pasted: lines of hexadecimal digits, or what FRR shows. Of FRR it reads
// `show ip ospf database router` and `.. network`; tools/lsas-of-show reads other routers too.

/** The two octets that make both sums over an LSA zero (RFC 2328, section 12.1.7, and RFC 905,
 * annex B), of an LSA whose checksum field is zero. */
function checksum(lsa) {
  let plain = 0, weighted = 0;
  for (let at = 2; at < lsa.length; at++) {
    plain = (plain + lsa[at]) % 255;
    weighted = (weighted + plain) % 255;
  }
  // The first octet of the checksum is so many places before the end.
  const left = lsa.length - 17;
  const x = ((left * plain - weighted) % 255 + 255) % 255 || 255;
  const y = ((510 - plain - x) % 255 + 255) % 255 || 255;
  return x * 256 + y;
}

const octets = address => address.split(".").map(Number);
const two = number => [number >> 8 & 255, number & 255];
const hex = bytes => bytes.map(it => it.toString(16).padStart(2, "0")).join("");

/** The value behind a label of a text; null where it has none. */
function behind(text, label) {
  const found = new RegExp(`^ *${label}: *(.*?) *$`, "m").exec(text);
  return found ? found[1] : null;
}

const LINKS = [["another Router (point-to-point)", 1, "Neighboring Router ID",
  "Router Interface address"],
["a Transit Network", 2, "Designated Router address", "Router Interface address"],
["Stub Network", 3, "Net", "Network Mask"],
["a Virtual Link", 4, "Neighboring Router ID", "Router Interface address"]];

/** The bytes of a link of a router-LSA, from what is shown below "Link connected to". */
function linkOf(text) {
  const kind = LINKS.find(it => text.startsWith(it[0]));
  if (!kind) return null;
  const id = behind(text, `\\(Link ID\\) ${kind[2]}`);
  const data = behind(text, `\\(Link Data\\) ${kind[3]}`), cost = behind(text, "TOS 0 Metric");
  if (id === null || data === null || cost === null) return null;
  return [...octets(id), ...octets(data), kind[1], 0, ...two(Number(cost))];
}

/** What comes behind the header of an LSA; null where it is not shown whole. */
function bodyOf(text, isRouter) {
  if (isRouter) {
    const flags = Number(behind(text, "Flags")?.split(" ")[0]);
    const links = text.split("Link connected to: ").slice(1).map(linkOf);
    if (Number.isNaN(flags) || links.includes(null)) return null;
    return [flags, 0, ...two(links.length), ...links.flat()];
  }
  const mask = /Network Mask: *\/(\d+)/.exec(text);
  if (!mask) return null;
  const bits = Number(mask[1]) ? 2 ** 32 - 2 ** (32 - Number(mask[1])) : 0;
  const attached = [...text.matchAll(/Attached Router: *([0-9.]+)/g)].flatMap(it => octets(it[1]));
  return [bits >>> 24, bits >>> 16 & 255, bits >>> 8 & 255, bits & 255, ...attached];
}

/** The LSA that a part of the text shows, as hexadecimal digits; null where it is not whole. */
function lsaOf(text) {
  const isRouter = behind(text, "LS Type") === "router-LSA";
  const isNetwork = behind(text, "LS Type") === "network-LSA";
  const body = isRouter || isNetwork ? bodyOf(text, isRouter) : null;
  if (!body) return null;
  const id = behind(text, "Link State ID").split(" ")[0], length = body.length + 20;
  const head = [...two(Math.min(Number(behind(text, "LS age")), 3600)),
    Number(behind(text, "Options").split(" ")[0]), isRouter ? 1 : 2, ...octets(id),
    ...octets(behind(text, "Advertising Router").split(" ")[0]),
    ...octets(behind(text, "LS Seq Number").replace("0x", "").match(/../g)
      .map(it => parseInt(it, 16)).join("."))];
  const lsa = [...head, 0, 0, ...two(length), ...body];
  const sum = checksum(lsa);
  // Only an LSA with the length and the checksum that are shown is the one of the database.
  if (sum !== Number(behind(text, "Checksum")) || length !== Number(behind(text, "Length")))
    return null;
  lsa.splice(16, 2, ...two(sum));
  return hex(lsa);
}

/** The LSAs that FRR shows, as lines of hexadecimal digits, and how many are not shown whole. */
function lsasOfShow(text) {
  const parts = text.replace(/\r/g, "").split(/^ *LS age: */m).slice(1)
    .map(it => lsaOf("LS age: " + it));
  return {lsas: parts.filter(it => it).map(it => it + "\n").join(""),
    left: parts.filter(it => !it).length};
}

/** What is pasted as lines of hexadecimal digits. */
function lsasOf(text) {
  return /LS age:/.test(text) ? lsasOfShow(text) : {lsas: text, left: 0};
}
