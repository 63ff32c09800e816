// Writes, for each page in a frame, how wide its bars are drawn next to which numbers, into the element #found.
addEventListener("load", () => {
    const width = (node) => node ? node.getBoundingClientRect().width : 0;
    const number = (node) => node ? Number(node.textContent.replace(/[^0-9]/g, "")) : 0;
    const told = document.createElement("pre");
    told.id = "found";
    told.textContent = JSON.stringify([...document.querySelectorAll("iframe")].map((frame) =>
        [...frame.contentDocument.querySelectorAll(".bars li")].map((row) => {
            const plus = row.querySelector(".plus"), gained = number(plus);
            const votes = number(row.querySelector(".votes").firstChild);
            return {votes, gained, kept_width: width(row.querySelector(".kept")), gained_width: width(row.querySelector(".gained"))};
        })));
    document.body.append(told);
});
