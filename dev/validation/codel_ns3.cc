// ns-3's CoDelQueueDisc at a link. See codel_link.h for input and output; the count is read from the queue's trace source.
#include "codel_link.h"

#include "ns3/codel-queue-disc.h"
#include "ns3/core-module.h"
#include "ns3/network-module.h"

using namespace ns3;

class Item : public QueueDiscItem
{
  public:
    explicit Item(uint32_t bytes) : QueueDiscItem(Create<Packet>(bytes), Address(), 0) {}
    void AddHeader() override {}
    bool Mark() override { return false; }
};

static Ptr<CoDelQueueDisc> queue;
static ns_t rate, freeAt;
static uint32_t count_, nextBytes;
static ns_t nextTime;

static void Counted(uint32_t, uint32_t now) { count_ = now; }

static void Dropped(Ptr<const QueueDiscItem>, const char*)
{
    printf("%llu %u\n", (ns_t)Simulator::Now().GetNanoSeconds(), count_);
}

static void TakeNow();

static void Take()
{
    Ptr<QueueDiscItem> item = queue->Dequeue();
    freeAt = item ? Simulator::Now().GetNanoSeconds() + time_of(item->GetSize(), rate) : 0;
    if (item)
    {
        Simulator::Schedule(NanoSeconds(freeAt) - Simulator::Now(), &TakeNow);
    }
}

static void TakeNow() { Take(); }

static void Arrive(uint32_t bytes)
{
    if (freeAt && freeAt == (ns_t)Simulator::Now().GetNanoSeconds())
    {   // the link takes first: this packet comes again behind it
        Simulator::ScheduleNow(&Arrive, bytes);
        return;
    }
    queue->Enqueue(Create<Item>(bytes));
    if (!freeAt)
    {
        Take();
    }
    unsigned long long time, next;
    if (scanf("%llu %llu", &time, &next) == 2)
    {
        Simulator::Schedule(NanoSeconds(time) - Simulator::Now(), &Arrive, (uint32_t)next);
    }
}

int main()
{
    unsigned long long r, target, interval, maxpacket, time, bytes;
    if (scanf("%llu %llu %llu %llu %llu %llu", &r, &target, &interval, &maxpacket, &time, &bytes) != 6)
    {
        return 1;
    }
    rate = r;
    queue = CreateObject<CoDelQueueDisc>();
    queue->SetAttribute("MaxSize", QueueSizeValue(QueueSize("1000000p")));
    queue->SetAttribute("MinBytes", UintegerValue(maxpacket));
    queue->SetAttribute("Interval", TimeValue(NanoSeconds(interval)));
    queue->SetAttribute("Target", TimeValue(NanoSeconds(target)));
    queue->TraceConnectWithoutContext("Count", MakeCallback(&Counted));
    queue->TraceConnectWithoutContext("DropAfterDequeue", MakeCallback(&Dropped));
    queue->Initialize();
    Simulator::Schedule(NanoSeconds(time), &Arrive, (uint32_t)bytes);
    Simulator::Run();
    Simulator::Destroy();
    return 0;
}
