"""What has to be said beside the answer to a clean session: that no use of a page was judged, or that owed pages never came."""


def was_owed(before, page):
    """Whether a page is not released behind these records of the guest, which are those before its halt."""
    changes = [record[0] for record in before if record[0] in "wz" and int(record[2]) == page]
    return not changes or changes[-1] == "w"


NO_USE = "the guest neither reads nor writes a page after a resume, so no use of one was judged"


def note(session):
    """What has to be said beside the answer that all is well, if something has."""
    guest, pager = ([record.split(" ") for record in session.logs[log]] for log in ("guest", "pager"))
    kinds = [record[0] for record in guest]
    if "resume" not in kinds:
        return f"note: {NO_USE}"
    halt, resume = kinds.index("halt"), kinds.index("resume")
    came = {int(record[1]) for record in pager if record[0] in ("place", "zero")} | {int(record[2]) for record in guest[resume:] if record[0] == "z"}
    left = [page for page in range(int(session.head[1].split(" ")[1])) if was_owed(guest[:halt], page) and page not in came]
    parts = [f"owed pages that never came: {len(left)} (with --complete-pages that is status 1)"] if left else []
    parts += [] if "r" in kinds[resume:] or "w" in kinds[resume:] else [NO_USE]
    return f"note: {'; '.join(parts)}" if parts else None
