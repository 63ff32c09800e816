"""What is said about a request that isn't answered, by its status or its cause."""

REPLIES = {
    "busy": "A command is running. Look at the step again when it has ended.",
    "outdated": "The audit has gone on since this page was made, in another tab or before you went back. Nothing was changed. Look at the step as it is now.",
    400: "The request can’t be read.",
    401: "The desk opens with the address that it prints when it starts. Each address works once. End the desk and start it again for a new one.",
    403: "The request doesn’t come from a page of this desk.",
    404: "There is no such page.",
    405: "This method isn’t allowed here.",
    413: "The file or the form is too long. A ballot file, a manifest and a seen file have up to 64 MiB, an export up to 1 GiB.",
    414: "The address is too long.",
    421: "The desk answers only at 127.0.0.1, with the port that it printed.",
    500: "The desk has a fault. Nothing was changed. The details are in the terminal where the desk was started.",
}
