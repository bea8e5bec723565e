// Files that are opened, and files that are saved. None leaves the machine.

/** Offers some bytes or a text as a file. */
export function save(content, name, type) {
  const link = document.createElement("a");
  link.href = URL.createObjectURL(new Blob([content], { type }));
  link.download = name;
  link.click();
  setTimeout(() => URL.revokeObjectURL(link.href), 10_000);
}

/** Takes files that are dropped anywhere or chosen. */
export function takeFiles(take) {
  const input = document.getElementById("file");
  const read = async (file) => {
    if (file) take(new Uint8Array(await file.arrayBuffer()), file.name);
  };
  document.getElementById("open").addEventListener("click", () => input.click());
  input.addEventListener("change", async () => {
    await read(input.files[0]);
    input.value = "";
  });
  addEventListener("dragover", (event) => event.preventDefault());
  addEventListener("drop", (event) => {
    event.preventDefault();
    read(event.dataTransfer.files[0]);
  });
}
