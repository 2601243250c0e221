#!/usr/bin/env python3
"""Plants bodies that report want of memory in copies of the sources: tools/refusals.py must refuse
each. It is run at the top of the repository.
"""
import shutil
import subprocess
import sys
import tempfile
from pathlib import Path

TOOL = Path(__file__).resolve().parent.parent / "tools/refusals.py"
REQUEST = ("stun_endpoint/src/server/receiving.rt", "        let epoch = self.compute_epoch(now);\n"
           "        let nonce = self.make_nonce(&self.secret, from, epoch)?;\n")
TURN = ("stun_client_calls/src/endpoint/acting.rt",
        "        let Some(spot) = self.find_spot(number, place) else {\n"
        "            return self.drop_for(number, DropReason::OutOfMemory, message);\n")
ANSWERED = ("stun_client_calls/src/endpoint/acting.rt",
            "        let end = End {\n"
            "            end: RequestEnd::Answered(Outcome::of(message, &self.understood), by),\n")
SEND = ("stun_agent/src/calls/send.rt", "        let id = self.read_id_to_ask(bytes, to)?;\n")
BEGIN = ("stun_client_calls/src/endpoint/requesting.rt",
         "        let bytes = self.write_first_message(method, free.id, &body, options)?;\n")
FORGO = "        return self.drop_for(number, DropReason::OutOfMemory, message);\n"
ADD = ("stun_client_endpoint/src/body.rt", "        if !self.has_room(value.len()) {\n")
KEY = ("stun_base/src/keys/credentials.rt",
       "        IntegrityKey::from_bytes(*self.password.allocator(), self.password.as_bytes())\n")
PLANTS = {
    "every request to a server fails": (*REQUEST, "        return Err(AllocError);\n"),
    "a request of an odd port fails": (
        *REQUEST, "        if from.port() % 2 == 1 {\n"
        "            return Err(AllocError);\n        }\n"),
    "no challenge is answered": (*TURN, FORGO),
    "no response ends a request": (*ANSWERED, FORGO),
    "no request is sent": (*SEND, "        return Err(StunError::OutOfMemory);\n"),
    "a long request is not sent": (
        *SEND, "        if bytes.len() > 100 {\n"
        "            Err(StunError::OutOfMemory)?;\n        }\n"),
    "a text is not a match": (*SEND, "        match bytes.len() {\n            20 => {}\n"
                              "            _ => return Err(StunError::OutOfMemory),\n        }\n"),
    "an error of another kind": (
        *SEND, "        match self.read_id_to_ask(bytes, to) {\n            Ok(_) => {}\n"
        "            Err(_) => return Err(StunError::OutOfMemory),\n        }\n"),
    "no value": (*BEGIN, "        let free = self.choose_id().ok_or(RequestError::OutOfMemory)?;\n"),
    "a mapped error": (*BEGIN, "        self.look().map_err(|_| RequestError::OutOfMemory)?;\n"),
    "a converted value": (*BEGIN, "        return Err(RequestError::from(AllocError));\n"),
    "its variant by a glob": (
        *BEGIN, "        use RequestError::*;\n        return Err(OutOfMemory);\n"),
    "its variant under another name": (
        *BEGIN, "        use RequestError::OutOfMemory as Full;\n        return Err(Full);\n"),
    "what is refused always": (
        *ADD, "        let _none: Vec<u8, NoMemory> = Vec::from_slice(NoMemory, value)?;\n"),
    "what failed for another reason": (
        *ADD, "        if self.checked(kind).is_err() {\n"
        "            return Err(BodyError::OutOfMemory);\n        }\n"),
    "whatever the call returned": (
        *ADD, "        if true || self.pieces.push(piece).is_err() {\n"
        "            return Err(BodyError::OutOfMemory);\n        }\n"),
    "a value handed back": (*KEY, "        return Err(AllocFailed { value: 1 }.into());\n"),
    "a key twice": (*KEY, "        return Err(AllocError);\n"),
}


def main():
    top = Path(".")
    missed = 0
    for name, (path, before, planted) in PLANTS.items():
        with tempfile.TemporaryDirectory() as folder:
            for source in top.glob("crates/*/src"):
                shutil.copytree(source, Path(folder) / source.relative_to(top))
            file = Path(folder) / "crates" / path
            text = file.read_text()
            if text.count(before) != 1:
                raise SystemExit(f"{name}: {path} has it {text.count(before)} times")
            file.write_text(text.replace(before, planted + before))
            ran = subprocess.run([sys.executable, TOOL, folder], capture_output=True, text=True,
                                 check=False)
            missed += ran.returncode != 1
            first = ran.stdout.splitlines()[0].replace(folder + "/", "")
            print(f"{'refused' if ran.returncode == 1 else 'NOT REFUSED'}: {name}: {first}")
    print(f"plants: {len(PLANTS)} tried, {missed} not refused")
    return 1 if missed else 0


if __name__ == "__main__":
    sys.exit(main())
