// The sentences for what a user is told, in the words of the third column of docs/GLOSSARY.md. Faults and refusals are those of
// docs/OUTPUT.md.

const FAULTS = {
  MissingPps: "it names a picture parameter set that wasn't sent", MissingSps: "it names a sequence parameter set that wasn't sent",
  HeaderCut: "a slice header runs past its end: the unit is cut", HeaderValue: "a field of a slice header is out of its range",
  Redundant: "it is a redundant picture", SliceOrder: "a slice is lost, or the order of slices is arbitrary",
  SliceMismatch: "slices of two pictures were joined", NoIdr: "no IDR picture stands before it",
  SpsChange: "it needs other parameters, and isn't an IDR picture", IdrFrameNum: "its frame_num isn't 0, though it is an IDR picture",
  FrameNumGap: "a picture is missing before it", FrameNumRepeat: "a picture before it is there twice",
  OrderRange: "its picture order count leaves 32 bits", OrderTie: "two pictures that it refers to have the same picture order count",
  NoReference: "it refers to pictures, and there is none", BadModification: "a picture that its lists name isn't there",
  BadMarking: "a picture that it marks isn't there", TooManyReferences: "there are more reference pictures than max_num_ref_frames",
};

const REFUSALS = {
  1: "it is no H.264 byte stream: a container, perhaps, or damaged", 2: "it has units of a type that isn't decoded",
  3: "a unit's forbidden bit is set: it is damaged", 4: "a sequence parameter set can't be read: it is damaged, interlaced, or 4:4:4",
  5: "a picture parameter set can't be read", 6: "it has a slice of type SP or SI", 7: "an access unit has slices of IDR and of other pictures",
  8: "an IDR picture has a P or B slice", 9: "an IDR picture isn't a reference", 10: "an access unit has slices of reference and of other pictures",
  14: "an access unit is too large", 15: "there is no memory for it", 16: "a unit isn't there any more", 17: "a stream has 65,536 units at most",
  21: "a group has 1,024 edits at most", 23: "the file can't be read",
  25: "the file, or the journal beside it, can't be written",
};

const number = new Intl.NumberFormat("en");

export const counted = (count, what) => `${number.format(count)} ${what}${count === 1 ? "" : "s"}`;

export const whyFaulty = ({ name }) => FAULTS[name] ?? name;

/** What is refused, and why. */
export const refused = (what, { message, number: code }) => (REFUSALS[code] ? `${what}: ${REFUSALS[code]} (${message}).` : `${what}: ${message}`);

/** What an edit would do to the units that stay: "" where it breaks nothing. */
export function broken({ faulty, in_doubt: doubt }) {
  if (faulty && doubt) return `decode errors in ${counted(faulty, "access unit")}, which propagate to ${counted(doubt, "picture")}`;
  return faulty ? `decode errors in ${counted(faulty, "access unit")}` : doubt ? `errors propagate to ${counted(doubt, "picture")}` : "";
}
