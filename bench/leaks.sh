#!/usr/bin/env bash
# Tests whether the first line of tools/leaks names what holds a leak, on programs that leak beside a steady catalog.
#
# usage: bench/leaks.sh [NAME..]
#
# NAME..: programs of the table below, or folders of bench/java/leaks, whose programs are all meant; all if none is
# given. Each dumps itself before and after its leak grew. The catalog is about three times as large as the leak in the
# last dump, or larger. The folders:
#
#   shop    services that leak while nothing else happens
#   load    services of real libraries, with requests inside the library while a dump is made
#   hard    leaks in plain Java that are hard to name
#   beside  plain Java and real libraries, beside a catalog and a cache that has other pages each day
#   tried   new ones of the same kind, by other classes of the JDK and other libraries
#   seen    new ones again, with leaks of other kinds
#   judge   new ones, by other libraries and other parts of the JDK
#   fresh   new ones, of kinds that servers have
#   several ten with two or three leaks each, and six whose leak only fields of several kinds hold together
#
# The order of tools/leaks is tuned on all of these but those of judge, fresh and several, on which it is judged: their
# holders were written down before tools/leaks ran on them. A program of these whose line is read to change the order is
# one to tune on from then on: those of beside, tried and seen were judging groups until their lines were read.
#
# Java is that of JAVA_HOME, else that of PATH. A program is left out if it needs a later version, or a library that
# /usr/share/java does not have; the row then says the Debian package.
#
# Prints a Markdown table: for each program the megabytes of its dumps, how many megabytes grew, how many the catalog
# has, the seconds that tools/leaks took without a class, how often it started heapmark, and its first line. A line is
# right if its field is the holder of the table below, and the catalog is not in it. It is partly right if the output
# lacks the words of the table, which say which of many objects it is. If a program has several leaks, its first lines
# are judged, as many as it has leaks: right if each leak's holder is the field of one of them, in any order; partly
# right if line 1 names a leak, but another has no line. After a line that is not right comes the whole output. The last
# line is `N right, M wrong, K left out`, with `P partly` between if there are any. Exit status 1 if a line was wrong or
# partly right, 2 if there is no such program.
#
# heapmark is the binary of crates/heapmark/out, or what the variable HEAPMARK names. LEAKS: a command in place of
# tools/leaks, HELD one in place of tools/held. KEPT: a folder in which the dumps stay, NAME-before.hprof,
# NAME-after.hprof, and NAME-middle.hprof of three. DUMPED: such a folder, whose dumps are searched again: Java is not
# run, and a program without dumps is left out. SCALE: how many times as large as usual catalog and leak are (1); with
# 26, the last dump has some 600 MB.
set -euo pipefail

# shellcheck source=bench/judging.sh
. "$(dirname "$0")/judging.sh"
scale=${SCALE:-1}

# programs: prints the table, as judging.sh says.
programs() {
    cat << 'PROGRAMS'
shop/MetricsService 17 2
    shop/MetricsService$Metrics.meters
shop/QuoteService 17 2
    shop/QuoteService$Bus.listeners
shop/TracingService 17 2
    shop/TracingService$Trace.spans
shop/DriverService 17 2
    static shop/DriverService$Registry.DRIVERS
shop/RedeployService 17 2
    static java/lang/ApplicationShutdownHooks.hooks
shop/PaymentService 17 2
    static shop/PaymentService.PENDING
shop/PriceService 17 2
    static shop/PriceService.RECENT
shop/TagService 17 2
    static vendor/text/Interner.POOL
shop/TimeoutService 17 2
    java/util/concurrent/ThreadPoolExecutor.workQueue
        | java/util/concurrent/ScheduledThreadPoolExecutor$DelayedWorkQueue.queue
shop/UploadService 17 2
    shop/UploadService.chunks
shop/SizeService 17 2
    static shop/SizeService$Gr\xc3\xb6\xc3\x9fentabelle.NACH_L\xc3\x84NGE
shop/AuditService 17 2
    local shop/AuditService.collect | thread "audit"
shop/MailService 17 2
    shop/MailService$Mailer.waiting
shop/JournalService 17 2
    together static shop/JournalService$Journal.events, static shop/JournalService$Screen.shown
shop/AckService 21 2
    static shop/AckService.DELIVERIES | local shop/AckService.deliver
        | together static shop/AckService.DELIVERIES, thread
shop/ScopeService 25 2
    shop/ScopeService$Context.answered
load/LogbackService 17 2 liblogback-java,libslf4j-java logback-classic,logback-core,slf4j-api
    ch/qos/logback/classic/LoggerContext.loggerCache | ch/qos/logback/classic/Logger.childrenList
        | together ch/qos/logback/classic/LoggerContext.loggerCache, ch/qos/logback/classic/LoggerContext.root
load/Log4jService 17 2 liblog4j2-java log4j-api,log4j-core
    org/apache/logging/log4j/core/config/LoggerConfig.appenders
        | org/apache/logging/log4j/core/config/AppenderControlArraySet.appenderArray
load/EventBusService 17 2 libguava-java guava
    com/google/common/eventbus/SubscriberRegistry.subscribers | com/google/common/eventbus/EventBus.subscribers
        | static load/EventBusService.BUS
load/CaffeineService 17 2 libcaffeine-java caffeine
    static load/CaffeineService.TOKENS | com/github/benmanes/caffeine/cache/UnboundedLocalCache.data
        | com/github/benmanes/caffeine/cache/UnboundedLocalCache$UnboundedLocalManualCache.cache
load/PoolService 17 2 libcommons-pool2-java commons-pool2
    org/apache/commons/pool2/impl/GenericObjectPool.allObjects
load/HttpClientService 17 2 libhttpclient-java httpclient,httpcore,commons-logging,commons-codec
    org/apache/http/pool/AbstractConnPool.leased | org/apache/http/pool/RouteSpecificPool.leased
        | org/apache/http/impl/conn/PoolingHttpClientConnectionManager.pool
load/TimerService 17 2 libnetty-java netty-common
    io/netty/util/HashedWheelTimer.wheel
load/GaugeService 17 2 libdropwizard-metrics-java,libslf4j-java metrics-core,slf4j-api
    com/codahale/metrics/MetricRegistry.metrics
load/QuartzService 17 2 libquartz2-java,libslf4j-java quartz2,slf4j-api
    org/quartz/simpl/RAMJobStore.* | org/quartz/core/QuartzSchedulerResources.jobStore
load/SessionService 17 2 libtomcat9-java tomcat9-*
    org/apache/catalina/session/ManagerBase.sessions
load/SpringService 17 2 libspring-context-java spring3-*,commons-logging
    org/springframework/context/event/AbstractApplicationEventMulticaster$ListenerRetriever.applicationListeners
load/JettyService 17 2 libjetty9-java,libservlet-api-java jetty9-server,jetty9-util,jetty9-http,jetty9-io,servlet-api
    org/eclipse/jetty/server/handler/HandlerCollection._handlers
        | org/eclipse/jetty/util/component/ContainerLifeCycle._beans | static load/JettyService.VERSIONS
        | static org/eclipse/jetty/server/ShutdownMonitor$Holder.instance | threads "qtp*" | thread "qtp*"
        | thread "Connector-Scheduler-*"
load/HsqldbService 17 2 libhsqldb-java hsqldb
    org/hsqldb/SessionManager.sessionMap
load/DerbyService 17 2 libderby-java derby
    org/apache/derby/impl/io/vfmem/DataStore.files | org/apache/derby/impl/io/vfmem/BlockedByteArray.blocks
        | org/apache/derby/impl/io/vfmem/DataStoreEntry.src
load/StatementService 17 2 libcommons-dbcp2-java,libh2-java commons-dbcp2,commons-pool2,commons-logging,h2
    org/apache/commons/pool2/impl/GenericKeyedObjectPool.poolMap
        | org/apache/commons/dbcp2/PoolingConnection.pstmtPool
load/TemplateService 17 2 libfreemarker-java freemarker
    freemarker/cache/StringTemplateLoader.templates | static load/TemplateService.TEMPLATES
load/SearchService 17 2 liblucene4.10-java lucene-core-4.10.4,lucene-analyzers-common-4.10.4
    org/apache/lucene/search/SearcherLifetimeManager.searchers | static load/SearchService.SEARCHERS
load/BrokerService 17 2 libactivemq-java activemq-broker,activemq-client,geronimo-j*,hawtbuf,slf4j-api
    org/apache/activemq/broker/region/cursors/OrderedPendingList.*
        | org/apache/activemq/broker/region/cursors/VMPendingMessageCursor.list
        | org/apache/activemq/broker/region/cursors/StoreQueueCursor.nonPersistent
        | org/apache/activemq/broker/region/Queue.messages
    says invoices
load/TreeService 17 2 libzookeeper-java zookeeper,zookeeper-jute,netty-all,slf4j-api
    org/apache/zookeeper/server/NodeHashMapImpl.nodes | org/apache/zookeeper/server/DataTree.nodes
load/ScriptService 17 2 librhino-java js
    org/mozilla/javascript/NativeArray.dense
load/AtomService 17 2 libclojure-java clojure
    clojure/lang/Atom.state
    says sessions
load/BundleService 17 2 libfelix-framework-java org.apache.felix.framework
    org/apache/felix/framework/util/EventDispatcher.m_svcListeners
load/EternalService 17 2 libehcache-java ehcache,slf4j-api
    net/sf/ehcache/store/MemoryStore.map
    says tokens
hard/ExpiryService 17 2
    static hard/ExpiryService.ORDERS
hard/FinalizerService 17 2
    static java/lang/ref/Finalizer.unfinalized | static java/lang/ref/Finalizer.queue
        | java/lang/ref/Reference.referent
hard/BufferService 17 2
    static hard/BufferService.RECEIVED
hard/CachesService 17 2
    static hard/CachesService$Caches.CACHE_*
hard/PollService 17 2
    static hard/PollService.EVENTS | local hard/PollService.poll | thread "poll"
hard/ReportService 17 2
    thread "report-*" | threads "report-*" | threads report-*
hard/NoiseService 17 3
    static hard/NoiseService.VISITORS
hard/BasketService 17 2
    hard/BasketService$Basket.items
    says basket-4711
hard/TopicService 17 2
    static hard/TopicService.QUEUES
    says invoices
hard/WorkerService 17 2
    java/lang/ThreadLocal$ThreadLocalMap$Entry.value | java/lang/ThreadLocal$ThreadLocalMap.table
        | java/lang/Thread.threadLocals
hard/SelectorService 17 2
    sun/nio/ch/SelectorImpl.keys | sun/nio/ch/SelectorImpl.publicKeys | sun/nio/ch/EPollSelectorImpl.fdToKey
        | local hard/SelectorService.serve | thread "selector"
hard/BeanService 17 2
    hard/BeanService$InvoiceService.drafts
hard/SwapService 17 2
    static hard/SwapService.VISITS
hard/DeskService 17 2
    hard/DeskService$Desk.movements
hard/UndeployService 17 2
    thread "cleaner-*" | threads "cleaner-*" | threads cleaner-* | local hard/UndeployService$Application.run
hard/ReminderService 17 2
    java/util/TaskQueue.queue | java/util/Timer.queue | java/util/TimerThread.queue
hard/ClearanceService 17 2
    static hard/ClearanceService.VISITS
hard/ImportService 17 2
    local hard/ImportService.importRows | thread "import"
hard/TenantService 17 2
    com/sun/jmx/mbeanserver/Repository.domainTb
hard/ImageService 17 2
    static hard/ImageService.IMAGES
    says weak
beside/ChatService 17 2
    beside/ChatService$Session.history
    says welcome-bot
beside/InboxService 17 2
    beside/InboxService$Inbox.mails | beside/InboxService$Tenant.inbox
    says tenant-317
beside/ChannelService 17 2
    beside/ChannelService$Channel.oldest
    says quotes.eur
beside/LockService 17 2
    beside/LockService$Locks.byKey
beside/SensorService 17 2
    beside/SensorService$Sensor.listeners
    says boiler-7
beside/RouteService 17 2
    beside/RouteService$Planner.planned
beside/FormatService 17 2
    beside/FormatService$Scratch.parts
beside/DeliveryService 17 2
    beside/DeliveryService$Destination.retries
    says hooks-23.
beside/LabelService 17 2
    beside/LabelService$Metric.children
    says http_requests_total
beside/PanelService 17 2
    beside/PanelService$Settings.changes | java/beans/PropertyChangeSupport.map | java/beans/ChangeListenerMap.map
beside/WordService 17 2
    beside/WordService$Words.root
beside/LineService 17 2
    beside/LineService$Log.pending
    says payments.audit
beside/RegionService 17 2
    beside/RegionService$Region.quotes
    says eu-central
beside/CrawlService 17 2
    local beside/CrawlService.crawl | thread "crawler"
beside/StampService 17 2
    java/util/concurrent/CompletableFuture.stack | beside/StampService$Clock.offset
beside/ExportService 17 2
    static java/io/DeleteOnExitHook.files
beside/LaneService 17 2
    java/util/concurrent/ThreadPoolExecutor.workQueue
    says pdf
beside/JsonService 17 2 libjackson2-databind-java jackson-core,jackson-databind,jackson-annotations
    com/fasterxml/jackson/databind/ObjectMapper._rootDeserializers
beside/AliasService 17 2 libcommons-collections4-java commons-collections4
    org/apache/commons/collections4/trie/AbstractPatriciaTrie.root | beside/AliasService$Directory.customers
beside/BorrowService 17 2 libhikaricp-java,libslf4j-java HikariCP,slf4j-api
    com/zaxxer/hikari/util/ConcurrentBag.sharedList | com/zaxxer/hikari/pool/HikariPool.connectionBag
beside/FlushService 17 2 libnetty-java netty-common,netty-buffer,netty-transport,netty-resolver
    io/netty/channel/ChannelOutboundBuffer.unflushedEntry
    says peer-77
beside/ChartService 17 2 libjfreechart-java jfreechart,jcommon
    org/jfree/data/xy/XYSeries.data
    says host-12
beside/SchemaService 17 2 libxerces2-java xercesImpl
    org/apache/xerces/util/XMLGrammarPoolImpl.fGrammars | beside/SchemaService.pool
beside/ReplyService 17 2 libokhttp-java okhttp,okio
    okhttp3/Dispatcher.readyAsyncCalls | okhttp3/OkHttpClient.dispatcher
beside/ActorService 17 2 libjctools-java jctools-core
    org/jctools/queues/BaseMpscLinkedArrayQueueConsumerFields.consumerBuffer | beside/ActorService$Actor.mailbox
    says system/billing
tried/HandleService 17 2
    jdk/internal/ref/CleanerImpl.phantomCleanableList | jdk/internal/ref/CleanerImpl.activeList
        | jdk/internal/ref/CleanerImpl$CleanableList.head
tried/MemoService 17 2
    tried/MemoService$Memo.results
    says vat-rate
tried/OverflowService 17 2
    tried/OverflowService$DeadLetters.refused
    says exports
tried/LedgerService 17 2
    tried/LedgerService$Partner.awaited
    says ledger.example.org
tried/HeaderService 17 2
    tried/HeaderService$Inbound.headers
tried/PluginService 17 2
    static java/sql/DriverManager.registeredDrivers
tried/ConsoleService 17 2
    sun/management/NotificationEmitterSupport.listenerList
tried/NightlyService 17 2
    java/util/logging/Logger$ConfigurationData.handlers
    says jobs.nightly
tried/StreamService 17 2
    java/util/concurrent/SubmissionPublisher$BufferedSubscription.array
    says warehouse
tried/DedupService 17 2
    tried/DedupService$Partition.seen
    says orders-7
tried/FilterService 17 2
    tried/FilterService$Server.chain
tried/CallbackService 17 2
    sun/net/httpserver/ContextList.list | sun/net/httpserver/ServerImpl.contexts
tried/CloseService 17 2 libnetty-java netty-common,netty-buffer,netty-transport,netty-resolver
    io/netty/util/concurrent/DefaultFutureListeners.listeners | io/netty/util/concurrent/DefaultPromise.listeners
    says bank.example.org
tried/TemporaryService 17 2 libh2-java h2
    org/h2/engine/SessionLocal.localTempTables | org/h2/mvstore/db/Store.tableMap
tried/WebhookService 17 2 libjetty9-extra-java,libjetty9-java jetty9-client,jetty9-util,jetty9-http,jetty9-io
    org/eclipse/jetty/client/HttpClient.destinations | org/eclipse/jetty/util/component/ContainerLifeCycle._beans
tried/BarrierService 17 2 libzookeeper-java zookeeper,zookeeper-jute,netty-all,slf4j-api
    org/apache/zookeeper/server/watch/WatchManager.watchTable
        | org/apache/zookeeper/server/watch/WatchManager.watch2Paths
tried/LetterService 17 2 libclojure-java clojure
    clojure/lang/Agent.aq | clojure/lang/Agent$ActionQueue.q
    says printer
tried/RuleService 17 2 librhino-java js
    org/mozilla/javascript/HashSlotMap.map | org/mozilla/javascript/SlotMapContainer.map
        | org/mozilla/javascript/ScriptableObject.slotMap | tried/RuleService$Customer.scope
    says northwind
tried/PlotService 17 2 libjfreechart-java jfreechart,jcommon
    org/jfree/data/general/AbstractDataset.listenerList | javax/swing/event/EventListenerList.listenerList
tried/FeedService 17 2 libdom4j-java dom4j
    org/dom4j/tree/QNameCache.namespaceCache
tried/LoginService 17 2 libshiro-java,libslf4j-java shiro-core,slf4j-api
    org/apache/shiro/session/mgt/SimpleSession.attributes
    says 10.20.0.9
tried/AdvertService 17 2 liblucene4.10-java lucene-core-4.10.4,lucene-analyzers-common-4.10.4
    org/apache/lucene/index/BufferedUpdates.terms
        | org/apache/lucene/index/DocumentsWriterDeleteQueue.globalBufferedUpdates
tried/AttachmentService 17 2 libcommons-io-java commons-io
    org/apache/commons/io/FileCleaningTracker.trackers
tried/CampaignService 17 2 libspring-beans-java,libspring-core-java spring3-beans,spring3-core,commons-logging
    org/springframework/beans/factory/support/DefaultSingletonBeanRegistry.singletonObjects
seen/GatherService 17 2
    java/util/concurrent/ExecutorCompletionService.completionQueue | static seen/GatherService.RENDERED
seen/TypeService 17 2
    java/lang/ClassLoader.parallelLockMap
seen/GatewayService 17 2
    java/lang/Throwable.suppressedExceptions | seen/GatewayService$Gateway.unavailable
    says clearing
seen/SnoozeService 17 2
    seen/SnoozeService$Outbox.snoozed | java/util/concurrent/DelayQueue.q
    says text-messages
seen/DraftService 17 2
    seen/DraftService$Draft.latest | seen/DraftService$Version.previous
    says annual-report
seen/CookieService 17 2
    java/net/InMemoryCookieStore.cookieJar | java/net/InMemoryCookieStore.uriIndex | java/net/CookieManager.cookieJar
    says bargains
seen/CursorService 17 2
    seen/CursorService$Pages.cursors
seen/ThrottleService 17 2
    seen/ThrottleService$Limiter.stripes
    says sign-in
seen/SpanService 17 2
    seen/SpanService$Span.children
    says scheduler
seen/ReceiptService 17 2
    com/sun/org/apache/xerces/internal/dom/CoreDocumentImpl.identifiers
seen/ArchiveService 17 2
    jdk/nio/zipfs/ZipFileSystemProvider.filesystems
seen/PreferenceService 17 2
    java/util/prefs/AbstractPreferences.kidCache | seen/PreferenceService.visitors
seen/ConvertService 17 2
    seen/ConvertService$JobStore.jobs
seen/TripService 17 2
    seen/TripService$Node.edges
seen/UsageService 17 2 libguava-java guava
    com/google/common/collect/StandardTable.backingMap | seen/UsageService.uses
    says acme-trial
seen/KeyService 17 2 libnetty-java netty-common
    io/netty/util/ConstantPool.constants | static io/netty/util/AttributeKey.pool
seen/RefundService 17 2 liblog4j2-java log4j-api
    org/apache/logging/log4j/spi/MutableThreadContextStack.list | java/lang/ThreadLocal$ThreadLocalMap$Entry.value
        | java/lang/ThreadLocal$ThreadLocalMap.table | java/lang/Thread.threadLocals | thread "refunds"
    says refunds
seen/StompService 17 2 libspring-messaging-java spring3-messaging,spring3-core,spring3-expression,commons-logging
    org/springframework/messaging/simp/broker/DefaultSubscriptionRegistry$SessionSubscriptionInfo.destinationLookup
    says kiosk-lobby
seen/TeaserService 17 2 libjsoup-java jsoup
    seen/TeaserService.teasers
seen/PatternService 17 2 libcommons-lang3-java commons-lang3
    org/apache/commons/lang3/time/FormatCache.cInstanceCache | static org/apache/commons/lang3/time/FastDateFormat.cache
seen/RelayService 17 2 libokio-java okio
    okio/Buffer.head | seen/RelayService$Receiver.unread
    says cold-storage
seen/MetalService 17 2 libclojure-java clojure
    clojure/lang/ARef.watches
    says palladium
seen/TransferService 17 2 libcommons-net-java commons-net
    org/apache/commons/net/util/ListenerList.listeners | org/apache/commons/net/ProtocolCommandSupport.listeners
        | org/apache/commons/net/ftp/FTP._commandSupport_
    says north-sea
seen/MailingService 17 2 libmail-java javax.mail,javax.activation
    javax/mail/internet/InternetHeaders.headers | javax/mail/internet/MimeMessage.headers
    says newsletter
seen/ModuleService 17 2 libjackson2-databind-java jackson-core,jackson-databind,jackson-annotations
    com/fasterxml/jackson/databind/cfg/SerializerFactoryConfig._additionalSerializers
        | com/fasterxml/jackson/databind/ser/BasicSerializerFactory._factoryConfig
        | com/fasterxml/jackson/databind/ObjectMapper._serializerFactory
seen/SiftService 17 2 liblogback-java,libslf4j-java logback-classic,logback-core,slf4j-api
    ch/qos/logback/core/spi/AbstractComponentTracker.liveMap
        | ch/qos/logback/core/sift/SiftingAppenderBase.appenderTracker
seen/RealmService 17 2 libplexus-classworlds-java plexus-classworlds
    org/codehaus/plexus/classworlds/ClassWorld.realms | seen/RealmService.world
seen/FerryService 17 2 librx-java,libreactive-streams-java rxjava,reactive-streams
    io/reactivex/rxjava3/subjects/ReplaySubject$UnboundedReplayBuffer.buffer
        | io/reactivex/rxjava3/subjects/ReplaySubject.buffer
    says north-pier
judge/ReplicaService 17 2
    java/io/ObjectOutputStream$HandleTable.objs | java/io/ObjectOutputStream.handles | judge/ReplicaService$Replica.out
    says lisbon-2
judge/RemoteService 17 2
    judge/RemoteService$Recorder.calls
    says tariffs
judge/TillService 17 2
    judge/TillService$Till.unprinted
    says till-11
judge/EditorService 17 2
    javax/swing/undo/CompoundEdit.edits | judge/EditorService$Document.edits
    says price-list
judge/NoticeService 17 2
    judge/NoticeService$Way.failed
    says PAGER
judge/BookingService 17 2
    judge/BookingService$Room.root
    says lobby
judge/SupplierService 17 2
    local judge/SupplierService$Supplier.run | thread "import-tyres"
    says import-tyres
judge/OfferService 17 2
    com/sun/org/apache/xerces/internal/util/SymbolTable.fBuckets | judge/OfferService.parser
judge/TextService 17 2
    static java/util/ResourceBundle.cacheList
judge/BoardService 17 3
    java/util/concurrent/SubmissionPublisher.clients | judge/BoardService.departures
judge/VisitService 17 2
    judge/VisitService$Visitors.bySilence
judge/OutlineService 17 3
    static judge/OutlineService.OUTLINES
judge/FundService 17 2
    judge/FundService$Fund.pages
judge/TellerService 17 2 libhsqldb-java hsqldb
    org/hsqldb/StatementManager.csidMap | org/hsqldb/StatementManager.statementSet
        | org/hsqldb/Session.statementManager
    says night-audit
judge/QueryService 17 2 libcaffeine-java caffeine
    com/github/benmanes/caffeine/cache/BoundedLocalCache.data
        | com/github/benmanes/caffeine/cache/*.accessOrder*Deque
        | com/github/benmanes/caffeine/cache/AbstractLinkedDeque.first
        | com/github/benmanes/caffeine/cache/BoundedLocalCache$BoundedLocalManualCache.cache
        | judge/QueryService$Rules.compiled
    says inbox-search
judge/LatencyService 17 2 libdropwizard-metrics-java,libslf4j-java metrics-core,slf4j-api
    com/codahale/metrics/SlidingTimeWindowReservoir.measurements | com/codahale/metrics/Histogram.reservoir
    says checkout
judge/DelayService 17 3 libcommons-math3-java commons-math3
    org/apache/commons/math3/util/ResizableDoubleArray.internalArray
        | org/apache/commons/math3/stat/descriptive/DescriptiveStatistics.eDA | judge/DelayService$Line.delays
    says airport
judge/SeatService 17 3 libfastutil-java fastutil
    it/unimi/dsi/fastutil/longs/Long2ObjectOpenHashMap.value | judge/SeatService$Hall.holds
    says open-air
judge/NumberService 17 2 libvavr0-java vavr-0.10.3,vavr-match-0.10.3
    judge/NumberService$Numbers.all
judge/TileService 17 2 libcommons-configuration2-java commons-configuration2,commons-lang3,commons-logging,commons-text
    org/apache/commons/configuration2/event/EventListenerList.listeners
        | org/apache/commons/configuration2/event/BaseEventSource.eventListeners
judge/GreetingService 17 2 libspring-context-java spring3-context,spring3-core,commons-logging
    org/springframework/context/support/MessageSourceSupport.messageFormatsPerMessage
judge/TrailService 17 2 liblog4j2-java log4j-api
    static org/apache/logging/log4j/MarkerManager.MARKERS
judge/SwitchService 17 2 libjsch-java jsch
    com/jcraft/jsch/KnownHosts.pool | com/jcraft/jsch/JSch.known_hosts
judge/ScanService 17 2 libcommons-vfs-java commons-vfs2,commons-logging
    org/apache/commons/vfs2/provider/ram/RamFileSystem.cache
        | org/apache/commons/vfs2/provider/ram/RamFileData.children
judge/SenderService 17 2 libdnsjava-java dnsjava
    org/xbill/DNS/Cache.data | judge/SenderService.found
judge/ReadingService 17 2 libguava-java guava
    com/google/common/collect/TreeRangeSet.rangesByLowerBound | judge/ReadingService$Station.received
    says summit
fresh/TickerService 17 2
    fresh/TickerService$Session.listeners
    says wallboard
fresh/InvoiceService 17 2
    java/lang/ThreadLocal$ThreadLocalMap$Entry.value | java/lang/ThreadLocal$ThreadLocalMap.table
        | java/lang/Thread.threadLocals
    says printer-
fresh/OutletService 17 2 libguava-java guava
    com/google/common/cache/LocalCache.segments | com/google/common/cache/LocalCache$LocalManualCache.localCache
        | fresh/OutletService$Outlet.quotes
    says outlet-ulm
fresh/ParcelService 17 2
    together static fresh/ParcelService$Ledger.ENTRIES, fresh/ParcelService$Depot.byCode
fresh/ForumService 17 2
    together fresh/ForumService$Room.posts, fresh/ForumService$ModeratedRoom.byNumber
    says garden-help
fresh/FraudService 17 2
    fresh/FraudService$Consumer.inbox
    says fraud-check
fresh/ColumnService 17 2
    fresh/ColumnService$Dictionary.values | fresh/ColumnService$Column.dictionary
    says request-id
fresh/CartService 17 2
    java/util/concurrent/ThreadPoolExecutor.workQueue
        | java/util/concurrent/ScheduledThreadPoolExecutor$DelayedWorkQueue.queue
    says CompletableFuture
fresh/ClickService 17 2 librx-java,libreactive-streams-java rxjava,reactive-streams
    io/reactivex/rxjava3/internal/operators/observable/ObservableGroupBy$GroupByObserver.groups
    says clicks
fresh/ConverterService 17 2
    fresh/ConverterService$Registry.converters
    says reports-app
several/PortalService 17 2
    several/PortalService$Settings.listeners
    also several/PortalService$Limiter.buckets
    also several/PortalService.quotes
several/OutboxService 17 2
    several/OutboxService$Outbox.connected | java/util/concurrent/CompletableFuture.stack
    also several/OutboxService$Receipts.byNumber
several/LobbyService 17 2
    several/LobbyService$Room.log
    also static several/LobbyService$Names.POOL
    also java/util/concurrent/ThreadPoolExecutor.workQueue
        | java/util/concurrent/ScheduledThreadPoolExecutor$DelayedWorkQueue.queue
    says entrance
several/TicketService 17 2
    several/TicketService$Trace.steps
    also several/TicketService.closed
    says counter-lost
several/MarketService 17 2
    several/MarketService$Shipper.waiting
    also several/MarketService$Prices.recent
    also several/MarketService$Stall.visitors
several/SketchService 17 2
    javax/swing/undo/CompoundEdit.edits | several/SketchService$Sheet.edits
    also several/SketchService$Palette.changes | java/beans/PropertyChangeSupport.map
        | java/beans/ChangeListenerMap.map
    says floor-plan
several/MeterService 17 2
    several/MeterService$Meter.counters
    also static several/MeterService$Sessions.OPEN
    also several/MeterService$Watch.opened
    says http_paths
several/BuildService 17 2
    several/BuildService$Console.text | java/lang/AbstractStringBuilder.value
    also several/BuildService$Store.artifacts
    also static several/BuildService$Locks.BY_NAME
several/AccountService 17 2
    several/AccountService$Account.events
    also several/AccountService$Snapshots.taken
    says clearing-house
several/MediaService 17 2
    several/MediaService$Uploads.byNumber
    also static java/io/DeleteOnExitHook.files
    also several/MediaService$Thumbnails.cached
several/TargetService 17 2
    together static several/TargetService$Table.BY_NUMBER, static several/TargetService$Table.BY_TARGET,
        several/TargetService$Collector.leases
several/CallService 17 2
    together several/wire/Transport.streams, several/retry/Budget.uncommitted, several/CallService$Channel.inUse
several/PackService 17 2
    together several/PackService$Database.listed, several/PackService$MemoryDatabase.stored
several/LenderService 17 2
    together static several/LenderService$Lender.OPEN, com/sun/jmx/mbeanserver/Repository.domainTb
several/EngineService 17 2
    together several/EngineService$Manager.open, several/EngineService$Locks.tables,
        several/EngineService$Protocol.undone
several/StubService 17 2
    static several/View$$*.CALLBACKS
PROGRAMS
}

# reachable DUMP: prints the reachable bytes of DUMP.
reachable() {
    "$HEAPMARK" "$1" | awk '$3 == "(reachable)" { print $2 }'
}

# catalog DUMP FOLDER: prints how many bytes the catalog of the programs of FOLDER holds in DUMP.
catalog() {
    { "${held[@]}" "$1" "$2/Catalog.PRODUCTS" 2> /dev/null || true; } | awk '{ bytes += $2 } END { print bytes }'
}

# dumped FOLDER NAME: runs the program, which dumps itself to `files`.
dumped() {
    rm -f "${files[@]}"
    "${java}java" -cp "$room/classes$path" "-Xmx$((64 + 64 * scale))m" "-Dscale=$scale" "-Djava.io.tmpdir=$room" \
        "$1.$2" "${files[@]}" > "$room/told" 2>&1 || { cat "$room/told" >&2; exit 1; }
}

# without_line HOLDERS: prints the holders of each leak that no line names, of as many lines as there are leaks.
without_line() {
    local leaked lines holders each
    mapfile -t leaked <<< "${1// also /$'\n'}"
    mapfile -t -n "${#leaked[@]}" lines < "$room/lines"
    for holders in "${leaked[@]}"; do
        for each in "${lines[@]}"; do
            ! named "$each" "$holders" || continue 2
        done
        echo "$holders"
    done
}

# judge HOLDERS WORDS: counts and prints what the answer is worth.
judge() {
    local lacking
    lacking=$(without_line "$1")
    if ! named "$line" "${1// also / | }"; then
        counted wrong "line 1 does not name $1"
    elif [ -n "$lacking" ]; then
        counted partly "line 1 names a leak, but no line names ${lacking//$'\n'/, nor }"
    elif ! says "$2"; then
        counted partly "line 1 names the holder, but nothing says $2"
    else
        right=$((right + 1))
    fi
}

# try FOLDER NAME HOLDERS WORDS: runs tools/leaks on the dumps, `files`, and prints the row of the table.
try() {
    local first=${files[0]} last=${files[-1]}
    ask "${files[@]}"
    awk -v service="$2" -v sizes="$(megabytes "${files[@]}")" -v before="$(reachable "$first")" \
        -v after="$(reachable "$last")" -v catalog="$(catalog "$last" "$1")" -v seconds="$microseconds" \
        -v runs="$runs" '{
            printf "| %s | %s | %.1f | %.1f | %.1f | %d | `%s` |\n", service, sizes, (after - before) / 1e6,
                catalog / 1e6, seconds / 1e6, runs, $0
        }' <<< "$line"
    judge "$3" "$4"
}

choose "$@"
counting
mkdir -p "$dumps"
[ -n "${DUMPED:-}" ] || compile "$top/bench/java/leaks"
on=${DUMPED:+, searched again}
echo "| Service | Dumps, MB | Grew, MB | Catalog, MB | Seconds | Runs | First line${on:-, on Java $release} |"
echo '|---|---|---|---|---|---|---|'
for row in "${chosen[@]}"; do
    IFS=$'\t' read -r folder name needed number packages jars holders words _ <<< "$row"
    files=("$dumps/$name-before.hprof" "$dumps/$name-after.hprof")
    [ "$number" = 2 ] || files=("${files[0]}" "$dumps/$name-middle.hprof" "${files[1]}")
    lacking=$(missing "$needed" "$packages" "$jars")
    if [ -n "$lacking" ]; then
        omitted=$((omitted + 1))
        echo "| $name | | | | | | left out: it needs $lacking |"
        continue
    fi
    if [ -z "${DUMPED:-}" ]; then
        class_path "$jars"
        dumped "$folder" "$name"
    fi
    try "$folder" "$name" "$holders" "$words"
    [ -n "${DUMPED:-}${KEPT:-}" ] || rm "${files[@]}"
done
judged
