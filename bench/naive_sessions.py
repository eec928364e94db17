"""What a site answers to a list of events, by the rule itself: a list of events that is filtered anew at
each step.

It has no table: every answer is computed from the events so far, each with the moment that it counts as and
whether it opened a session. It is the second program of `bench/random_sessions`."""


def kept(told, now):
    """The openings that are not forgotten."""
    return [e for e in told if e["opens"] and now < e["moment"] + 3600]


def stand(told, now, name):
    """How an id stands."""
    of_id = [e for e in told if e["id"] == name]
    openings = [i for i, e in enumerate(of_id) if e["opens"]]
    if not openings:
        return "unknown"
    opened = of_id[openings[-1]]["moment"]
    later = of_id[openings[-1] + 1 :]
    posts = [e["yes"] for e in later if e["word"] == "post" and e["moment"] < opened + 300]
    refused = posts.index(True) if True in posts else len(posts)
    if now >= opened + 3600:
        return "unknown"
    if refused >= 8:
        return "closed"
    if True in posts:
        return "yes %d" % refused
    if now >= opened + 300:
        return "expired %d" % refused
    return "pending %d" % refused


def rule(told, now, name, nonce):
    """What is answered to an opening."""
    openings = kept(told, now)
    if len(openings) >= 1024:
        return "full"
    if any(e["id"] == name for e in openings):
        return "draw in use " + name
    if any(e["nonce"] == nonce for e in openings):
        return "draw in use " + nonce
    return "opened"


def replies(lines):
    """The replies to the lines of one list."""
    told, answers = [], []
    for line in lines:
        word, moment, name, *rest = line.split(" ")
        now = max([int(moment)] + [e["moment"] for e in told])
        event = {"word": word, "moment": now, "id": name, "opens": False}
        if word == "open":
            answer = rule(told, now, name, rest[0])
            event.update(nonce=rest[0], opens=answer == "opened")
        else:
            answer = stand(told, now, name)
            if word == "post":
                event.update(yes=rest[0] == "yes")
                if answer.startswith("pending"):
                    answer = "turned" if event["yes"] else "counted"
        told.append(event)
        answers.append(answer)
    return answers
