# the replies: nothing is said of the first ones; then 1,000 jobs are given by their keys, and the last one
def offer(instance):
    """The job of an instance; both keys are told as what they are behind those of the partition."""
    return (
        f'{{"deadline":1000,"element":"t","instance":{2251799813685248 + instance},'
        f'"job":{2251799813685251 + instance},"retries":3,"type":"pay","variables":{{}}}}'
    )


print("..")
print('{"ok":{"jobs":[%s]},"units":0}' % ",".join(offer(instance) for instance in range(3, 4000, 4)))
print("""\
{"ok":{"jobs":[{"deadline":1000,"element":"t","instance":2251799813689251,"job":2251799813689254,"retries":3,"type":"pay","variables":{}}]},"units":0}
{"ok":{"now":1000},"units":0}
{"ok":{"due":1000},"units":0}
{"ok":{"due":1},"units":0}
{"ok":{"job":2251799813689254},"units":0}""")
