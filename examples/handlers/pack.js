// A handler of jobs in JavaScript: jagyerti run URL orders packers --from 0 -- node pack.js packed.txt
const fs = require("fs");
const lines = require("readline").createInterface({ input: process.stdin });

lines.on("line", (line) => {
    const job = JSON.parse(line);
    const item = new Map(job.fields).get("item");
    if (item !== undefined) fs.appendFileSync(process.argv[2], `${job.id} ${item}\n`);
    console.log(item !== undefined ? "done" : "later no item yet");
});
